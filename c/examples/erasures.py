"""A transport block over a link that erases half of the places: python3 erasures.py [TABLE.csv]"""
import random, sys, nr

table = nr.Table.open(sys.argv[1]) if sys.argv[1:] else nr.Table.practice()
block, heard = b"123456789", []
random.seed(1)
for rv in (0, 2, 3, 1):
    tx = nr.Tx(g=400, rv=rv, qm=2)
    bits = nr.send(table, block, tx, rate2048=2048)
    heard.append((tx, [nr.ERASED if random.random() < 0.5 else bit for bit in bits]))
answer = nr.receive(table, 8 * len(block), heard, rate2048=2048)
print(*(it.name.lower() for it in answer.outcomes), answer.left, answer.block)
