"""What runs jobs: processes of this machine, or the workers of a Dask scheduler."""

import concurrent.futures
import io
import multiprocessing
import signal
import warnings
import zipfile
from concurrent.futures.process import BrokenProcessPool
from functools import cache
from pathlib import Path
from typing import Any, Iterator, Optional, Sequence

from ..errors import BadInput
from .calling import Row, row_of, row_with
from .content import Store, hash_of
from .jobs import Job

# How often a job's process may die before the job has failed.
MOST_DEATHS = 3
# Jobs that are handed to Dask at once.
_AT_ONCE = 2_000
_PACKAGE = Path(__file__).resolve().parent.parent


@cache
def _store(folder: str) -> Store:
    return Store(Path(folder))


def _quiet() -> None:
    # Ctrl-C is the first process's to hear, and no program's that a worker runs.
    signal.signal(signal.SIGINT, signal.SIG_IGN)


def _run_here(job: Job, folder: str) -> Row:
    return row_of(job, _store(folder))


def died(job: Job) -> Row:
    """The row of a job whose process was killed again and again."""
    return row_with(job, "failed", f"its process died {MOST_DEATHS} times", {}, None)


def on_processes(jobs: Sequence[Job], store: Store, processes: int) -> Iterator[Row]:
    """Rows as they come. A process that is killed is replaced, and its call runs again."""
    left = {job.key: job for job in jobs}
    deaths = dict.fromkeys(left, 0)
    while left:
        suspects: list[str] = []
        context = multiprocessing.get_context("spawn")
        pool = concurrent.futures.ProcessPoolExecutor(processes, context, _quiet)
        try:
            running = {pool.submit(_run_here, job, str(store.folder)): key for key, job in left.items()}
            for future in concurrent.futures.as_completed(running):
                key = running[future]
                try:
                    row = future.result()
                except BrokenProcessPool:
                    suspects.append(key)
                    continue
                del left[key]
                yield row
        finally:
            pool.shutdown(wait=True, cancel_futures=True)
        # One of the first that had no end was running when its process died.
        for key in [key for key in left if key in suspects][:processes]:
            deaths[key] += 1
            if deaths[key] >= MOST_DEATHS:
                yield died(left.pop(key))


def tools_zip() -> bytes:
    """This package and what it stands on, as a file that a worker can import."""
    out = io.BytesIO()
    with zipfile.ZipFile(out, "w") as file:
        for path in sorted(_PACKAGE.rglob("*.py")):
            info = zipfile.ZipInfo(str(path.relative_to(_PACKAGE.parent)))
            file.writestr(info, path.read_bytes())
    return out.getvalue()


class WrongWorker(RuntimeError):
    """A worker that can't run this campaign's calls."""


def _run_there(job: Job, tools: str, parts: dict[str, bytes]) -> Row:
    """On a worker: what is missing goes into its own folder by its hash, which is checked."""
    import distributed

    if _code_here() != tools:
        raise WrongWorker("its tools are of another version: start it anew")
    store = _store(str(Path(distributed.get_worker().local_directory) / "campaign"))
    for name, data in parts.items():
        if not store.has(name) and store.put(data) != name:
            raise WrongWorker(f"what came isn't what its hash says: {name}")
    return row_of(job, store)


@cache
def _code_here() -> str:
    # The file that this module was imported from, or the same made of its sources.
    for parent in Path(__file__).parents:
        if parent.suffix == ".zip":
            return hash_of(parent.read_bytes())
    return hash_of(tools_zip())


def _same(data: bytes) -> bytes:
    return data


class Cluster:
    """The workers of a Dask scheduler. Needs `distributed`."""

    def __init__(self, address: str, room: Path) -> None:
        import distributed

        self._dask, self._address = distributed, address
        try:
            self._client = distributed.Client(address, timeout=20, set_as_default=False)
        except (OSError, ValueError, TimeoutError) as fault:
            raise BadInput(address, "no scheduler", str(fault) or "it doesn't answer") from None
        tools = tools_zip()
        self._tools = hash_of(tools)
        path = room / f"campaign_{self._tools[:16]}.zip"
        path.write_bytes(tools)
        self._client.upload_file(str(path))
        self._parts: dict[str, Any] = {}

    def run(self, jobs: Sequence[Job], store: Store) -> Iterator[Row]:
        """Rows as they come. The scheduler runs the calls of a dead worker again, elsewhere."""
        for start in range(0, len(jobs), _AT_ONCE):
            yield from self._some(jobs[start : start + _AT_ONCE], store)

    def _some(self, jobs: Sequence[Job], store: Store) -> Iterator[Row]:
        running = {self._submitted(job, store): job for job in jobs}
        for future in self._dask.as_completed(list(running), loop=self._client.loop):
            job = running.pop(future)
            row = future.result() if future.status == "finished" else self._failed(job, future)
            future.release()
            yield row

    def _failed(self, job: Job, future: Any) -> Row:
        fault = future.exception() if future.status == "error" else RuntimeError("it was cancelled")
        if isinstance(fault, WrongWorker):
            raise BadInput(self._address, "a worker", str(fault))
        return row_with(job, "failed", f"{type(fault).__name__}: {fault}", {}, None)

    def _submitted(self, job: Job, store: Store) -> Any:
        names = (job.program, job.video, job.trace)
        parts = {name: self._part(name, store) for name in names}
        options = {"pure": False, "retries": 0}
        return self._client.submit(_run_there, job, self._tools, parts, key=f"call-{job.key}", **options)

    def _part(self, name: str, store: Store) -> Any:
        # The scheduler has the bytes, so that no death of a worker takes them away.
        if name not in self._parts:
            data = store.path(name).read_bytes()
            with warnings.catch_warnings():  # that the bytes are many, which is meant
                warnings.simplefilter("ignore", UserWarning)
                self._parts[name] = self._client.submit(_same, data, key=f"file-{name}")
        return self._parts[name]

    def close(self) -> None:
        """Takes back what isn't done."""
        self._client.close()


def lacking(modules: Sequence[str]) -> Optional[str]:
    """The first of these modules that this Python hasn't."""
    import importlib.util

    return next((name for name in modules if importlib.util.find_spec(name) is None), None)
