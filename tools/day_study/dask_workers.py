"""Hands the days of a study to the workers of a Dask scheduler. Scheduling, retries and lost workers are Dask's own matter."""
import os
import pickle
import tempfile
import threading
import zipfile
from dataclasses import dataclass, field, replace
from pathlib import Path

from day_study.problem import Refused
from day_study.routing import Desk
from day_study.study import Bench
from day_study.workers import AHEAD

TOOLS = Path(__file__).resolve().parent.parent
# What workers need to import.
PACKAGES = ("day_study", "day_replay")
# How often a chunk is tried that ends with an error of Python.
RETRIES = 3
SECONDS_TO_CONNECT = 20


@dataclass
class Sent:
    """What is sent to each worker once: the study, what is known of its plan, and the programs as bytes."""

    study: object
    knowledge: str
    programs: dict
    key: str


@dataclass
class Place:
    """What a worker process keeps: the folder of the present study, and a bench for each of its threads."""

    lock: threading.Lock = field(default_factory=threading.Lock)
    key: str = ""
    folder: str = ""
    benches: dict = field(default_factory=dict)


PLACE = Place()


def unpack(sent, folder):
    """Writes the programs into a folder of the worker's, and gives the study with their names there."""
    names = {}
    for name, data in sent.programs.items():
        path = Path(folder, name)
        path.write_bytes(data)
        path.chmod(0o755)
        names[name] = str(path)
    return replace(sent.study, router=replace(sent.study.router, **names))


def bench_here(sent):
    """The bench of the present thread."""
    from distributed import get_worker

    with PLACE.lock:
        if PLACE.key != sent.key:
            PLACE.key, PLACE.benches = sent.key, {}
            PLACE.folder = tempfile.mkdtemp(prefix="many_days-", dir=get_worker().local_directory)
            PLACE.benches["study"] = unpack(sent, PLACE.folder)
        thread = threading.get_ident()
        if thread not in PLACE.benches:
            study = PLACE.benches["study"]
            PLACE.benches[thread] = Bench(study, Desk(study.router, study.airport_data, os.path.join(PLACE.folder, str(thread))))
            PLACE.benches[thread].learn(sent.knowledge)
        return PLACE.benches[thread]


def run_chunk(packed, first, end):
    """The rows of the days from FIRST up to END, on a worker."""
    bench = bench_here(pickle.loads(packed))
    return [bench.run(day) for day in range(first, end)]


def packages(folder):
    """An archive with the packages that workers import."""
    path = os.path.join(folder, "many_days_packages.zip")
    with zipfile.ZipFile(path, "w") as archive:
        for package in PACKAGES:
            for file in sorted((TOOLS / package).iterdir()):
                if file.suffix in (".py", ".css"):
                    archive.write(file, f"{package}/{file.name}")
    return path


def packed(study, knowledge, key):
    """All that workers need, as bytes."""
    router = study.router
    names = {"own": router.own} if router.own else {}
    if not router.in_process or router.check:
        names["program"] = router.program
    try:
        programs = {name: Path(path).read_bytes() for name, path in names.items()}
    except OSError as fault:
        raise Refused(f"{fault.filename} cannot be read ({fault.strerror})", 3) from fault
    return pickle.dumps(Sent(study, knowledge, programs, key))


class Dask:
    """The workers of a scheduler."""

    def __init__(self, study, knowledge, scratch, address):
        try:
            import distributed
            from distributed.diagnostics.plugin import UploadFile
        except ImportError as fault:
            raise Refused("--dask needs Python's package distributed (Debian: python3-distributed)") from fault
        try:
            self.client = distributed.Client(address, timeout=SECONDS_TO_CONNECT, set_as_default=False)
        except (OSError, ValueError) as fault:
            raise Refused(f"no Dask scheduler answers at {address}") from fault
        self.jobs = sum(self.client.ncores().values())
        if not self.jobs:
            self.client.close()
            raise Refused(f"the Dask scheduler at {address} has no workers")
        self.ahead = AHEAD * self.jobs
        # Workers that join later get it too.
        self.client.register_worker_plugin(UploadFile(packages(scratch)))
        self.sent = self.client.scatter(packed(study, knowledge, os.path.basename(scratch)), broadcast=True, hash=False)

    def submit(self, chunk):
        """Hands out the days of a chunk."""
        return self.client.submit(run_chunk, self.sent, *chunk, pure=False, retries=RETRIES)

    def collect(self, waiting, number):
        """The rows of a chunk."""
        return waiting[number][1].result()

    def close(self):
        """Lets the workers go."""
        self.client.close()
