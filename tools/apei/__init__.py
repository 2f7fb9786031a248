"""What the tools share: the plain models that the programs are compared with, and how a tool runs a program and counts its cases.

The models are written from the documents alone. They share no code with the programs, and each stands here once.
"""

from pathlib import Path

# The repository's folder.
TOP = Path(__file__).resolve().parents[2]
