"""SACK chunks as scapy writes them."""
from scapy.layers.sctp import SCTPChunkSACK

SACKS = [
    (100, [], []),
    (0, [], []),
    (4294967295, [], []),
    (2147483647, [(1, 1)], []),
    (4294967290, [(2, 3)], []),
    (4294967290, [(2, 3), (5, 5), (7, 20)], []),
    (7, [(2, 3)], [5, 6]),
    (7, [], [5, 5, 5, 5294967, 4294967295]),
    (65535, [(2 * i, 2 * i) for i in range(1, 51)], []),
    (1, [(2, 9), (4, 6), (8, 12)], [1]),
    (4294967200, [(100, 240)], []),
    (16909060, [(3, 4), (5, 6)], [16909050]),
]

print('# Written by of_scapy.py. Cumulative TSN | what is acknowledged beyond it, as offsets | duplicate TSNs | the chunk')
for cumulative, blocks, duplicates in SACKS:
    gaps = [f'{start}:{end}' for start, end in blocks]
    chunk = SCTPChunkSACK(cumul_tsn_ack=cumulative, a_rwnd=65536, gap_ack_list=gaps, dup_tsn_list=duplicates)
    offsets = sorted({offset for start, end in blocks for offset in range(start, end + 1)})
    print(cumulative, ' '.join(map(str, offsets)), ' '.join(map(str, duplicates)), bytes(chunk).hex(), sep=' | ')
