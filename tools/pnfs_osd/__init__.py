"""Clusters of pnfs_osd, and transcripts, from Python (3.8 or later).

`Cluster` opens files of a cluster as file objects, and `Transcript` reads what `replay` writes. The package needs nothing but
Python and the program, whose command `client` carries out each call.
"""
from .files import Cluster, ClusterError, ClusterFile
from .transcript import Message, Transcript
from .transcripts.lines import NoTranscript

__all__ = ["Cluster", "ClusterError", "ClusterFile", "Message", "NoTranscript", "Transcript"]
