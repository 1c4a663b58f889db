"""The tools that stand beside the program: what reads scripts and records, judges them and shows them.

script/    scripts: their words and forms, the scene that one spells, the fault of one that is none
records/   records: how they are read and told, and what a run comes to, as text, as pictures and as a timeline
model/     what a scene means: the layer tree, queues, the step table, transactions and their holds, painting; its play; and a run that
           is followed by its replies
check/     whether records mean what a scene allows
judging/   what another compositor shows, judged, alone or on a suite of scenes
android/   Android's traces, as scenes and of runs
view/      the page to look into a run
build/     how a program that plays scenes is made, and watched while it runs
commands/  what the commands in tools/ do, and the words that they take
"""

import os

# The folder of the whole project.
TOP = os.path.dirname(os.path.dirname(os.path.dirname(os.path.abspath(__file__))))
