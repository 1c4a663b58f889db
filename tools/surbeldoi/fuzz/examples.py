"""Scenes in which wrong implementations show that random scenes seldom tell from right ones."""

# A red and a green layer, of which the first one is small.
BEGIN = """actor 1
tx 1
set 1 1 create colour 0
set 1 1 colour ff0000ff
set 1 1 crop 0 0 1 1
set 1 2 create colour 0
set 1 2 colour 00ff00ff
set 1 2 z -1
"""
END = "apply 1 token 1\nend\n"
SECOND = "scene 2 2 2 1000000\n"
TREES = (
    # A layer below one that goes; a relative one that gets a parent, and one that gets a z; one that is relative to a hidden one.
    "set 1 3 create container 0\nset 1 1 reparent 3\napply 1 token 1\ntx 1\nset 1 3 destroy\n",
    "set 1 3 create container 0\nset 1 3 z -5\nset 1 1 relative 3 0\napply 1 token 1\ntx 1\nset 1 1 reparent 0\n",
    "set 1 3 create container 0\nset 1 3 z -5\nset 1 1 relative 3 0\napply 1 token 1\ntx 1\nset 1 1 z 0\n",
    "set 1 3 create container 0\nset 1 1 relative 3 1\nset 1 3 hidden 1\n",
    # A merge of two times.
    "desire 1 30000000\ntx 2\ndesire 2 50000000\nmerge 1 2\n",
)
MIRRORS = (
    # A copy of a layer that has a place; a mirror of a mirror; a copy beside a younger layer.
    "mirror 3 1\n" + BEGIN + "set 1 1 position 1 1\nset 1 3 create container 0\n",
    "mirror 3 1\nmirror 4 5\n" + BEGIN + "set 1 5 create container 0\nset 1 3 create container 5\nset 1 4 create container 0\nset 1 4 position 1 1\n",
    "mirror 3 2\n" + BEGIN + "set 1 3 create container 0\nset 1 4 create colour 3\nset 1 4 crop 0 0 1 1\nset 1 4 colour 0000ffff\n",
)
ORDERS = (
    # Two actors set the modes of two queues, and send a transaction each. A frame of a queue goes in the end.
    "queue 1 1 1\nqueue 2 1 1\nactor 1\nasync 1 0\nasync 2 0\nactor 2\nasync 2 0\nasync 1 0\norder 1*2 2*2\nend\n",
    "queue 1 1 1\npicture 1 1 1\nactor 1\nconnect 1\ndequeue 1 as s\nrequest s\ndraw s 1\nqueue s 1\nacquire 1 as i\ntx 1\nset 1 1 create buffer 0\nbuffer 1 1 i\n"
    "apply 1 token 1\ntx 1\nset 1 1 destroy\napply 1 token 1\norder 1*10 v 1*3 v\nend\n",
    "actor 1\ntx 1\nset 1 1 create colour 0\napply 1 token 2\nactor 2\ntx 1\nset 1 2 create colour 0\napply 1 token 1\norder 1*3 2*3 v\nend\n",
)
EXAMPLES = tuple(("scene 1 2 2 1000000\n" + BEGIN + more + END).encode() for more in TREES) + tuple((SECOND + more + END).encode() for more in MIRRORS)
EXAMPLES += tuple((SECOND + script).encode() for script in ORDERS)
