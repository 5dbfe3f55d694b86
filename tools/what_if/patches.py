"""Limits as patches of pods, with what each change needs."""
from __future__ import annotations

import json
import shlex
from typing import Dict, Iterator, List, Optional

from .amounts import Fault, amount_text
from .kubernetes import Container, Pod, read_pods

HEAD = """\
# kubectl 1.32 or newer, Kubernetes 1.33 or newer: a limit is raised in place. Kubernetes 1.33 lowers one only in a container
# whose resizePolicy for memory is RestartContainer, by a restart; newer ones lower it in place if the container uses less.
# In a Deployment the same containers are under spec.template.spec, and a change there starts new pods. Limits of pods are
# those of their containers together."""


def container_of(pods: List[Pod], path: str) -> Optional[Container]:
    """The container of a group."""
    return next((one for pod in pods for one in pod.running if f"{pod.path}/{one.name}" == path), None)


def need_of(container: Container, limit: int) -> str:
    """What a change needs; refuses a limit below the request."""
    if container.request is not None and container.asked is not None and limit < container.asked:
        raise Fault(f"the limit of {container.name} would be {limit} bytes ({amount_text(limit)}), below its request of "
                    f"{container.asked} bytes ({amount_text(container.asked)}): lower the request too, or give a --margin")
    if container.restarts_for_memory:
        return "the container restarts"
    if container.limit is None:
        return "it had no limit: Kubernetes 1.33 needs a new pod"
    if limit < container.limit:
        return f"lowered from {container.limit}: Kubernetes 1.33 needs a new pod"
    if container.request == container.limit:
        return "in place, but not alone in a Guaranteed pod: its request has to be raised too"
    return "in place"


def patch_of(path: str, limit: int, pods: Optional[List[Pod]]) -> Iterator[str]:
    """The command for a container, after what it needs if its pod is known."""
    names = path.split("/")[1:]
    container = container_of(pods, path) if pods is not None else None
    if len(names) != 2 or pods is not None and container is None:
        what = "it is no /POD/CONTAINER" if len(names) != 2 else "no pod in the file has it"
        yield f"# left out, since {what}: {path} {limit}"
        return
    space, kind = "", "containers"
    if container is not None:
        try:
            yield f"# {path}: {need_of(container, limit)}"
        except Fault as fault:
            raise Fault(f"{path}: {fault}") from None
        pod = next(pod for pod in pods or () if pod.path == f"/{names[0]}")
        names[0], space = pod.name, f" --namespace {shlex.quote(pod.namespace)}"
        kind = "initContainers" if container.is_sidecar else kind
    patch = {"spec": {kind: [{"name": names[1], "resources": {"limits": {"memory": str(limit)}}}]}}
    yield (f"kubectl patch pod {shlex.quote(names[0])}{space} --subresource resize "
           f"--patch {shlex.quote(json.dumps(patch))}")


def patch_lines(limits: Dict[str, int], pods_file: Optional[str]) -> List[str]:
    """A command for each container, which changes its limit."""
    pods = read_pods(pods_file) if pods_file else None
    return [*HEAD.split("\n"), *(line for path, limit in limits.items() for line in patch_of(path, limit, pods))]
