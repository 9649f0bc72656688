"""The two CRCs of document 01 ("Choosing a tag on the line", "Memory commands"), low bit first, from 0."""


def crc_table(polynomial):
    """What eight steps make of each byte. Low bit first, so the polynomial stands mirrored."""
    table = []
    for crc in range(256):
        for _ in range(8):
            crc = crc >> 1 ^ (polynomial if crc & 1 else 0)
        table.append(crc)
    return table


CRC8 = crc_table(0x8C)  # x^8 + x^5 + x^4 + 1
CRC16 = crc_table(0xA001)  # x^16 + x^15 + x^2 + 1


def crc8(data):
    crc = 0
    for byte in data:
        crc = CRC8[crc ^ byte]
    return crc


def crc16(data):
    crc = 0
    for byte in data:
        crc = crc >> 8 ^ CRC16[(crc ^ byte) & 0xFF]
    return crc


def crc16_sent(data):
    """The two bytes on the line: inverted, low byte first (01, Memory commands)."""
    return (crc16(data) ^ 0xFFFF).to_bytes(2, "little")
