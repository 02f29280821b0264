"""A client of deltagraph, a store for the whole history of a graph, whose every answer is proved.

    import deltagraph

    with deltagraph.open("history.dg") as store:
        store.create()
        store.load([(10, "+node", 1), (20, "+node", 2), deltagraph.AddEdge(30, 5, 1, 2)])
        with store.at(20) as then:
            print(then.counts())

It runs the program, which needs to be built or on the PATH, and speaks its script language (docs/SCRIPT.md).
"""
from __future__ import annotations

import os
from typing import Union

from .calendar import Calendar, NoDate
from .changes import (
    AddEdge,
    AddNode,
    AnyChange,
    Change,
    InvalidChange,
    LargeInstant,
    RemoveEdge,
    RemoveNode,
    SendMessage,
    SetEdge,
    SetNode,
    UnsetEdge,
    UnsetNode,
)
from .failures import (
    Closed,
    DeltagraphError,
    DiskFault,
    EmptyFile,
    IndexRefused,
    Killed,
    NoMemory,
    ProgramEnded,
    ProgramMissing,
    ScriptLimit,
    SinkFault,
    SourceFault,
    WrongProgram,
    WrongWords,
)
from .process import Program
from .rebuilding import FileChanged, LateChangeRefused, Rebuilt, Refusal, rebuild
from .refusals import (
    AlreadyIndexed,
    AlreadyLoaded,
    BadChange,
    Damaged,
    FileFull,
    HandlesSpent,
    HistoryFull,
    IndexesFull,
    IndexExists,
    InUse,
    LineLong,
    NewFormat,
    NoIndex,
    NotAnOverlay,
    NotIndexed,
    OldFormat,
    OutOfMemory,
    OutOfRange,
    Parameters,
    PoolFull,
    Refused,
    ShortBatch,
    StoreRead,
    Syntax,
    UnknownHandle,
    UnknownKey,
    UnknownNode,
)
from .replies import (
    Counts,
    Edge,
    EdgeAttribute,
    Generated,
    Graph,
    Indexed,
    Loaded,
    Message,
    Neighbour,
    Node,
    NodeAttribute,
    Plan,
    Pool,
    Potential,
    Record,
    Span,
    Step,
    Tree,
    Verdict,
    Verification,
)
from .script import Creation, Script, Spell, changes_between, dump, spells
from .snapshot import EdgeTable, Snapshot, Snapshots
from .store import Store
from .tables import BadTable, Report, from_csv, from_pandas

__version__ = "0.1.0"
__all__ = [
    "AddEdge",
    "AddNode",
    "AlreadyIndexed",
    "AlreadyLoaded",
    "AnyChange",
    "BadChange",
    "BadTable",
    "Calendar",
    "Change",
    "changes_between",
    "Closed",
    "Counts",
    "Creation",
    "Damaged",
    "DeltagraphError",
    "DiskFault",
    "dump",
    "Edge",
    "EdgeAttribute",
    "EdgeTable",
    "EmptyFile",
    "FileChanged",
    "FileFull",
    "from_csv",
    "from_pandas",
    "Generated",
    "Graph",
    "HandlesSpent",
    "HistoryFull",
    "Indexed",
    "IndexesFull",
    "IndexExists",
    "IndexRefused",
    "InUse",
    "InvalidChange",
    "Killed",
    "LargeInstant",
    "LateChangeRefused",
    "LineLong",
    "Loaded",
    "Message",
    "Neighbour",
    "NewFormat",
    "NoDate",
    "Node",
    "NodeAttribute",
    "NoIndex",
    "NoMemory",
    "NotAnOverlay",
    "NotIndexed",
    "OldFormat",
    "open",
    "OutOfMemory",
    "OutOfRange",
    "Parameters",
    "Plan",
    "Pool",
    "PoolFull",
    "Potential",
    "Program",
    "ProgramEnded",
    "ProgramMissing",
    "rebuild",
    "Rebuilt",
    "Record",
    "Refusal",
    "Refused",
    "Report",
    "RemoveEdge",
    "RemoveNode",
    "Script",
    "ScriptLimit",
    "SendMessage",
    "SetEdge",
    "SetNode",
    "ShortBatch",
    "SinkFault",
    "Snapshot",
    "Snapshots",
    "SourceFault",
    "Span",
    "Spell",
    "spells",
    "Step",
    "Store",
    "StoreRead",
    "Syntax",
    "Tree",
    "UnknownHandle",
    "UnknownKey",
    "UnknownNode",
    "UnsetEdge",
    "UnsetNode",
    "Verdict",
    "Verification",
    "WrongProgram",
    "WrongWords",
]


def open(
    index: Union[str, "os.PathLike[str]"], program: Program = None, checked: bool = False, cache: int = 0
) -> Store:
    """A session over an index file, best in a `with`.

    `program` is the program or its words; without it $DELTAGRAPH, `deltagraph` on the PATH, or the one built in the
    checkout that this package lies in. With `checked` the file is verified first, and refused where it is not sound.
    `cache` ranges of the file, 0 to 65,536, are kept in memory, which changes no answer.

    A file that is not there is made by `Store.create`, and by nothing else. Raises `ProgramMissing`, `WrongProgram`,
    `IndexRefused` for a file that is no index or a damaged one, and other `ProgramEnded`.
    """
    return Store(index, program, checked, cache)
