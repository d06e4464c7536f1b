"""Whether checks/refusals.py can fail: bodies that answer out of memory at will are planted into the sources, one at a
time, and each is refused at its line; and what is right, so that it doesn't refuse all."""
import pathlib
import sys

import pytest

sys.path.insert(0, str(pathlib.Path(__file__).resolve().parent))
import refusals

PARTS = "arrivals/src/parts.rt"  # whose body begins with
BEGIN = "    let PieceMessages { origin, messages } = piece;\n"
ROOM = "    Vec::with_capacity(alloc, left.min(ENOUGH))\n"
CONFIG, DOCUMENT, WORDS = ("%s.rt" % name for name in (
    "settings/src/config", "settings/src/document", "command_line/src/words"))
PASS_FAULT = "captures/src/pass_fault.rt"
MEMORY_ARM = "Err(PlanFault::Memory) => Err(ConfigFault::MEMORY),"
MEMORY_GUARD = "Err(fault) if fault.kind == ConfigFaultKind::Memory => Err(AllocError),"
MEMORY_IF = "    if error.kind() == ErrorKind::OutOfMemory {\n"
NEXT = "        Ok(None) => return Ok(None),\n        Err(fault) => return Err(ReplayFault::from(fault)),\n"
BUFFERS = ("        Vec::with_capacity(alloc, BUFFER_BYTES),\n        Vec::with_capacity(alloc, BUFFER_BYTES),\n"
           "    ) else {")
REFUSED_NAME = "    match FolderFault::new(alloc, name, fault) {\n"
CUT_FAILED = "        if let CutterState::Failed = self.stage {\n            return Err(AllocError);\n        }\n"
USE = "use std::alloc::{AllocError, Global};\n"

# What is planted: its name, the file, a text that stands there once, and what stands there in its place.
WRONG = [
    ("an option, by ok_or", PARTS, BEGIN, BEGIN + "    messages.first().ok_or(AllocError)?;\n"),
    ("an option, by ok_or_else", PARTS, BEGIN, BEGIN + "    messages.first().ok_or_else(|| AllocError)?;\n"),
    ("another error, by map_err", PARTS, BEGIN, BEGIN + "    u32::try_from(origin).map_err(|_| AllocError)?;\n"),
    ("another function's, by map_err", "cost_model/src/prefix.rt",
     "fn parts_of(alloc: Global, text: &[u8]) -> Result<Vec<Bytes>, AllocError>\n",
     "fn odd() -> Result<u8, u8> {\n    Err(0)\n}\nfn parts(alloc: Global) -> Result<u8, AllocError> {\n"
     "    odd().map_err(|_| AllocError)\n}\n"
     "fn parts_of(alloc: Global, text: &[u8]) -> Result<Vec<Bytes>, AllocError>\n"),
    ("a fault of the capture behind the allocator", "replay/src/engine.rt", NEXT,
     NEXT.replace("Err(fault) => return Err(ReplayFault::from(fault)),", "Err(_) => return Err(ReplayFault::Memory),")),
    ("a fault of the capture, by a name", "replay/src/engine.rt", NEXT,
     NEXT.replace("ReplayFault::from(fault)", "ReplayFault::Memory")),
    ("the else of an option", PARTS, BEGIN,
     BEGIN + "    let Some(_) = messages.first() else {\n        return Err(AllocError);\n    };\n"),
    ("the else of an if", PARTS, BEGIN, BEGIN + "    if messages.is_empty() {\n        return empty_part(alloc, 1);\n"
     "    } else {\n        return Err(AllocError);\n    }\n"),
    ("the error of another match", PARTS, BEGIN, BEGIN + "    match u32::try_from(origin) {\n        Ok(_) => (),\n"
     "        Err(_) => return Err(AllocError),\n    }\n"),
    ("an else above", PARTS, BEGIN, BEGIN + "    let Ok(_) = empty_part(alloc, 1) else {\n        return Ok(part);\n"
     "    };\n    if origin > 9 {\n        return Err(AllocError);\n    }\n"),
    ("a success", PARTS, BEGIN, BEGIN + "    match empty_part(alloc, 1) {\n        Ok(_) => return Err(AllocError),\n"
     "        Err(refused) => return Err(refused),\n    }\n"),
    ("a listed line, a second time", "http_requests/src/cutting.rt", CUT_FAILED,
     CUT_FAILED + "        if piece.is_empty() {\n            return Err(AllocError);\n        }\n"),
    ("a listed line, once more than listed", "stage_graph/src/helpers/passage.rt",
     "    if chunks.len() != notes.len() {\n",
     "    if done > 9 {\n        return Err(Unrun::Memory);\n    }\n    if chunks.len() != notes.len() {\n"),
    ("another line of a listed function", "http_requests/src/cutting.rt", CUT_FAILED,
     CUT_FAILED + "        piece.first().ok_or(AllocError)?;\n"),
    ("a listed line, elsewhere", PARTS, BEGIN, BEGIN + "    if origin > 9 {\n        return Err(AllocError);\n    }\n"),
    ("a guard that says the opposite", DOCUMENT, MEMORY_GUARD, MEMORY_GUARD.replace("==", "!=")),
    ("a guard that says more", DOCUMENT, MEMORY_GUARD, MEMORY_GUARD.replace("Memory =>", "Memory || true =>")),
    ("a guard of something else", DOCUMENT, MEMORY_GUARD, MEMORY_GUARD.replace("fault.kind ==", "other.kind ==")),
    ("a guard on a success", DOCUMENT, MEMORY_GUARD, MEMORY_GUARD.replace("Err(fault) if", "Ok(fault) if")),
    ("an error with a guard", PARTS, BEGIN, BEGIN + "    match u32::try_from(origin) {\n        Ok(_) => (),\n"
     "        Err(_) if origin == 9 => return Err(AllocError),\n        Err(_) => (),\n    }\n"),
    ("another fault in an arm, inside", CONFIG, MEMORY_ARM,
     MEMORY_ARM.replace("Memory)", "Memory | PlanFault::Order)")),
    ("another fault in an arm, beside", CONFIG, MEMORY_ARM, MEMORY_ARM.replace("Memory) =>", "Memory) | Err(_) =>")),
    ("a name that takes all", CONFIG, MEMORY_ARM, MEMORY_ARM.replace("PlanFault::Memory", "Memory")),
    ("an arm behind a closure", CONFIG, MEMORY_ARM, "Ok(_) => |a, b| Err(AllocError),\n        " + MEMORY_ARM),
    ("an arm behind one without a comma", PARTS, BEGIN, BEGIN + "    match empty_part(alloc, 1) {\n"
     "        Err(_) => if origin > 9 {\n            return Ok(part);\n        } else {\n            return Ok(part);\n"
     "        }\n        Ok(_) => return Err(AllocError),\n    }\n"),
    ("what a map_err is given at once", PARTS, BEGIN,
     BEGIN + "    empty_part(alloc, 1).map_err({\n        return Err(AllocError);\n    })?;\n"),
    ("a condition that says the opposite", WORDS, MEMORY_IF, MEMORY_IF.replace("==", "!=")),
    ("a condition that says more", WORDS, MEMORY_IF, MEMORY_IF.replace("OutOfMemory", "OutOfMemory || true")),
    ("a condition of their own", WORDS, MEMORY_IF, MEMORY_IF.replace("error.kind() == ErrorKind::OutOfMemory", "true")),
    ("one of two calls", "program/src/replaying.rt", BUFFERS, BUFFERS.replace("Vec::with_capacity", "first_of", 1)),
    ("one of two successes", "program/src/replaying.rt", "(Ok(waiting), Ok(report_waiting))",
     "(Ok(waiting), Some(report_waiting))"),
    ("another call", "runs/src/snapshotting.rt", REFUSED_NAME,
     REFUSED_NAME.replace("FolderFault::new(alloc, ", "folder.read(")),
    ("another type's call of the name", "paths/src/reading.rt", "let mut files = Snapshot::new(alloc);",
     "let mut files = Queue::new(alloc);"),
    ("a name that is given another value", "paths/src/reading.rt", "let mut files = Snapshot::new(alloc);",
     "let mut files = Snapshot::new(alloc);\n        let mut files = other(files);"),
    ("a closure with a function's name", PARTS, BEGIN, BEGIN + "    let empty_part = |_, _| Err(1);\n"
     "    let Ok(_) = empty_part(alloc, 1) else {\n        return Err(AllocError);\n    };\n"),
    ("a value for an absent one", PARTS, BEGIN,
     BEGIN + "    let fault = messages.err().unwrap_or(ReplayFault::Memory);\n"),
    ("a field", PARTS, BEGIN, BEGIN + "    let fault = CaptureFault { at: 1, kind: CaptureFaultKind::Memory };\n"),
    ("the error of a device", PARTS, BEGIN, BEGIN + "    let error = io::Error::from(ErrorKind::OutOfMemory);\n"),
    ("the error of a text", PARTS, BEGIN, BEGIN + "    let error = Err(fmt::Error);\n"),
    ("the error of a text, imported", PARTS, USE, USE + "use std::fmt::{self, Error};\n"),
    ("a conversion", PARTS, BEGIN, BEGIN + "    let fault = ReplayFault::from(AllocError);\n"),
    ("the constant", PARTS, BEGIN, BEGIN + "    let fault = ConfigFault::MEMORY;\n"),
    ("a function of its own", PARTS, USE, USE + "fn lacking() -> AllocError {\n    AllocError\n}\n"),
    ("a constant of its own", PARTS, USE, USE + "const LACKING: AllocError = AllocError;\n"),
    ("a macro of its own", PARTS, USE, USE + "macro_rules! lacking {\n    () => {\n        AllocError\n    };\n}\n"),
    ("another name", PARTS, USE, "use std::alloc::{AllocError as Refused, Global};\n"),
    ("another type", PARTS, USE, USE + "type Refused = AllocError;\n"),
    ("another error's From", PASS_FAULT, "impl From<AllocError> for PassFault {", "impl From<u8> for PassFault {"),
    ("a default", PASS_FAULT, "    Memory,\n", "    #[default]\n    Memory,\n"),
    ("what it holds", PASS_FAULT, "    Memory,\n", "    Memory(#[from] io::Error),\n"),
    ("a GiB", PARTS, ROOM, "    Vec::with_capacity(alloc, 1 << 30)\n"),
    ("a GiB in digits", PARTS, ROOM, "    Vec::with_capacity(alloc, 1_073_741_824usize)\n"),
    ("all that a number counts", PARTS, ROOM, "    Vec::with_capacity(alloc, usize::MAX)\n"),
    ("a constant's GiB", PARTS, ROOM, "    Vec::with_capacity(alloc, (MAX_TEXT_BYTES / 2) as usize)\n"),
    ("a GiB that has a name", PARTS, ROOM, "    let room = 1 << 30;\n    Vec::with_capacity(alloc, room)\n"),
    ("a GiB of zeros", PARTS, ROOM, "    vec![in alloc; 0; 1 << 30]\n"),
    ("a GiB more", PARTS, BEGIN, BEGIN + "    part.reserve(ENOUGH << 18)?;\n"),
]
RIGHT = [
    ("an else", PARTS, BEGIN,
     BEGIN + "    let Ok(_) = empty_part(alloc, 1) else {\n        return Err(AllocError);\n    };\n"),
    ("a condition", PARTS, BEGIN,
     BEGIN + "    if let Err(_) = empty_part(alloc, 1) {\n        return Err(AllocError);\n    }\n"),
    ("a map_err", PARTS, BEGIN, BEGIN + "    empty_part(alloc, 1).map_err(|_| AllocError)?;\n"),
    ("an arm", PARTS, BEGIN, BEGIN + "    match empty_part(alloc, 1) {\n        Ok(_) => (),\n"
     "        Err(AllocError) => return Err(AllocError),\n    }\n"),
    ("types", PARTS, BEGIN,
     BEGIN + "    let all: Result<(), AllocError> = empty_part::<AllocError>(|| -> AllocError {});\n"),
    ("reading", PARTS, BEGIN,
     BEGIN + "    let is_so = fault == ReplayFault::Memory && matches!(fault, Fault::Memory);\n"),
    ("what is no code", PARTS, BEGIN, BEGIN + "    let text = \"Err(AllocError)\"; // Err(AllocError)\n"),
    ("a MiB", PARTS, ROOM, "    Vec::with_capacity(alloc, 1 << 20)\n"),
]


@pytest.fixture(scope="module")
def texts():
    return refusals.read_all()


def judged(texts, path, old, new):
    """What is refused of the sources with something else in the place of a text."""
    assert texts[path].count(old) == 1
    return refusals.judged({**texts, path: texts[path].replace(old, new)})[0]


def test_as_they_stand(texts):
    wrong, count, known = refusals.judged(texts)
    assert not wrong and known == refusals.listed().total() < count


@pytest.mark.parametrize("path, old, new", [row[1:] for row in WRONG], ids=[row[0] for row in WRONG])
def test_wrong(texts, path, old, new):
    wrong = [line for line in judged(texts, path, old, new) if not line.endswith(": listed, and not there")]
    assert wrong and all(line.startswith(path + ": ") for line in wrong)


@pytest.mark.parametrize("path, old, new", [row[1:] for row in RIGHT], ids=[row[0] for row in RIGHT])
def test_right(texts, path, old, new):
    assert not judged(texts, path, old, new)


def test_lists(texts):
    """What is listed and isn't there is reported."""
    first = "        if number >= MOST {\n            return Err(AllocError);\n"
    new = judged(texts, "stage_graph/src/notes.rt", first, first.replace("return Err(AllocError);", "self.add(1);"))
    assert new == ["stage_graph/src/notes.rt: note: return Err(AllocError);: listed, and not there"]
