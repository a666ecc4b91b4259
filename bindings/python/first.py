"""The first program: each node adds to one number, and node 0 prints the sum once all have: `ivyrun -n 3 python3 first.py`."""
from ivy_process import Process

PAGE, ALL_DONE = 1024, 0

with Process() as ivy:
    for _ in range(100):
        ivy.fetch_add(PAGE, 1)
    ivy.barrier(ALL_DONE).wait()
    if ivy.me == 0:
        print(f"{ivy.nodes} nodes: {ivy.load(PAGE)}")
