"""Calls of ./epaxos, for what is made by the programs as they are built."""

import os
import subprocess

TOP = os.path.dirname(os.path.dirname(os.path.dirname(os.path.realpath(__file__))))


def written(words, given):
    """What a command of ./epaxos writes that reads this."""
    words = [f"{TOP}/epaxos", "--quiet", *words]
    return subprocess.run(words, input=given, stdout=subprocess.PIPE, check=True).stdout
