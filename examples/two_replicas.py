"""Ann and Ben each have a replica; they act apart from each other, and what they send each other comes late and twice."""
from grove import Replica, refusals

with Replica() as ann, Replica() as ben:
    for replica in (ann, ben):
        replica.apply("+1.2 0.0 root main 1.1 plus\n")
    of_ann = ann.act(1, "construct 1.1 left num:1")
    of_ben = ben.act(2, "construct 1.1 left true")
    for edits in (of_ben.edits, of_ben.edits):
        ann.apply(edits)
    ben.apply(of_ann.edits)
    assert ann.show() == ben.show()
    print("judged otherwise:", ", ".join(record.vertex for record in ben.changed()))
    try:
        ben.act(2, "construct 1.1 left num:2")
    except refusals.Occupied as refused:
        print(refused.answer)
    ben.act(2, "cut 2.2")
    print(ben.show(), end="")
