"""Pods as `kubectl get pods -o json` writes them: limits, what MemoryQoS sets, and the names that long ids stand for."""
from __future__ import annotations

import decimal
import re
from collections import Counter
from dataclasses import dataclass
from typing import Any, Callable, Dict, Iterator, List, Optional, Set

from .amounts import Fault, read_amount, whole_bytes, within_reach
from .files import read_json

POWERS: Dict[str, int] = {"": 1, **{unit: 1000 ** power for power, unit in enumerate("kMGTPE", 1)},
          **{f"{unit}i": 1024 ** power for power, unit in enumerate("KMGTPE", 1)}}
PAGE = 4096
QOS_HEAD = ("# MemoryQoS of Kubernetes 1.27, in bytes: memory.min is the request, and memory.high request + 0.9 * "
            f"(limit - request), rounded down to pages of {PAGE}")

# What a container has of something, in bytes.
Amount = Callable[["Container"], Optional[int]]


def quantity(word: Any) -> int:
    """The bytes of a quantity as Kubernetes writes it, in which M is a million, Mi is 1,048,576 and m a thousandth."""
    thousandths = re.fullmatch(r"([0-9]+)m", str(word))
    if thousandths:
        return within_reach(whole_bytes(int(thousandths[1]), str(word)), str(word))
    found = re.fullmatch(r"([0-9]+\.?[0-9]*|\.[0-9]+)(?:([kMGTPE]|[KMGTPE]i)|[eE]([+-]?[0-9]{1,3}))?", str(word))
    if not found:
        raise Fault(f"'{word}' is no quantity of Kubernetes")
    power = decimal.Decimal(10) ** int(found[3]) if found[3] else decimal.Decimal(POWERS[found[2] or ""])
    return within_reach(int((decimal.Decimal(found[1]) * power).to_integral_value(decimal.ROUND_CEILING)), str(word))


@dataclass(frozen=True)
class Container:
    """A container. A sidecar is one of init that goes on beside the others."""
    name: str
    limit: Optional[int]
    asked: Optional[int]
    is_init: bool
    is_sidecar: bool
    restarts_for_memory: bool

    @property
    def request(self) -> Optional[int]:
        """Its request. Kubernetes gives one that has a limit alone that limit as its request."""
        return self.limit if self.asked is None else self.asked


@dataclass(frozen=True)
class Pod:
    """A pod, with its containers in the order in which they start, those of init first."""
    namespace: str
    name: str
    path: str
    containers: List[Container]
    overhead: int

    @property
    def running(self) -> List[Container]:
        """The containers that go on: those of the pod, then its sidecars."""
        return ([one for one in self.containers if not one.is_init] + [one for one in self.containers if one.is_sidecar])


def pod_path(namespace: Optional[str], name: str, twice: Set[str]) -> str:
    """A pod's group, which begins with the namespace if two have a pod of this name."""
    return f"/{namespace}_{name}" if name in twice else f"/{name}"


def container_of(found: Dict[str, Any], is_init: bool) -> Container:
    """A container, as a pod's spec has it."""
    resources = found.get("resources") or {}
    memory = {kind: (resources.get(kind) or {}).get("memory") for kind in ("limits", "requests")}
    limit, asked = (None if word is None else quantity(word) for word in memory.values())
    policies = {one["resourceName"]: one["restartPolicy"] for one in found.get("resizePolicy") or []}
    return Container(found["name"], limit, asked, is_init, is_init and found.get("restartPolicy") == "Always",
                     policies.get("memory") == "RestartContainer")


def pod_of(found: Dict[str, Any], twice: Set[str]) -> Pod:
    """A pod, as kubectl writes it."""
    spec, namespace, name = found["spec"], found["metadata"].get("namespace") or "default", found["metadata"]["name"]
    containers = [container_of(one, True) for one in spec.get("initContainers") or []]
    containers += [container_of(one, False) for one in spec["containers"]]
    return Pod(namespace, name, pod_path(namespace, name, twice), containers,
               quantity((spec.get("overhead") or {}).get("memory", "0")))


def raw_pods(path: str, whole: Any) -> List[Dict[str, Any]]:
    """The pods of a list, or the one pod, as they are in the file."""
    pods: List[Dict[str, Any]] = whole.get("items", [whole]) if isinstance(whole, dict) else []
    others = sorted({str(pod.get("kind")) for pod in pods if isinstance(pod, dict) and pod.get("kind", "Pod") != "Pod"})
    if not pods or others or not all(isinstance(pod, dict) and "metadata" in pod and "spec" in pod for pod in pods):
        what = f"these are of the kind {', '.join(others)}, and there are no pods" if others and pods[0].get(
            "spec") else "there are no pods"
        raise Fault(f"{path}: {what}: kubectl get pods -o json writes them")
    return pods


def names_twice(raw: List[Dict[str, Any]]) -> Set[str]:
    """The names that pods of several namespaces have."""
    pods = {(pod["metadata"].get("namespace"), pod["metadata"]["name"]) for pod in raw}
    return {name for name, count in Counter(name for _, name in pods).items() if count > 1}


def read_pods(path: str) -> List[Pod]:
    """The pods in a file."""
    raw = raw_pods(path, read_json(path))
    try:
        return [pod_of(pod, names_twice(raw)) for pod in raw]
    except (KeyError, TypeError, AttributeError) as fault:
        raise Fault(f"{path}: a pod isn't as kubectl writes it: {fault}") from None
    except Fault as fault:
        raise Fault(f"{path}: {fault}") from None


def whole(pod: Pod, of: Amount) -> Optional[int]:
    """What a pod's group gets of what its containers have, as Kubernetes sums it: the containers with all sidecars, or one
    of init with the sidecars that started before it, whichever is more. None if one has None."""
    if any(of(one) is None for one in pod.containers):
        return None
    sidecars = most = 0
    for one in pod.containers:
        own = of(one) or 0
        if one.is_sidecar:
            sidecars += own
        if one.is_init:
            most = max(most, sidecars if one.is_sidecar else sidecars + own)
    return max(sum(of(one) or 0 for one in pod.running), most) + pod.overhead


def min_lines(group: str, request: Optional[int]) -> List[str]:
    """The line of a group's memory.min."""
    return [f"{group} min {request}"] if request else []


def high_lines(group: str, limit: Optional[int], request: Optional[int], node: Optional[int]) -> List[str]:
    """The line of a container's memory.high, or the comment why it has none. A Guaranteed one has neither."""
    if limit is None and request is None:
        return [f"# left out, since it has no request and no limit: memory.high of {group}"]
    if limit is None and node is None:
        return [f"# left out, since it has no limit, and --node isn't given: memory.high of {group}"]
    most, least = (node or 0) if limit is None else limit, request or 0
    if limit is None and least >= most:
        return [f"# left out, since its request isn't below --node: memory.high of {group}"]
    high = (10 * least + 9 * (most - least)) // (10 * PAGE) * PAGE
    return [f"{group} high {high}"] if high > least else []


def limits_of(pod: Pod, has_qos: bool, node: Optional[int]) -> Iterator[str]:
    """The lines of limits.txt for the groups of a pod. Without MemoryQoS requests set nothing, and are a comment."""
    left = []
    limit = whole(pod, lambda one: one.limit)
    if limit is not None:
        yield f"{pod.path} {limit}"
    if has_qos:
        yield from min_lines(pod.path, whole(pod, lambda one: one.request or 0))
    for one in pod.running:
        group = f"{pod.path}/{one.name}"
        yield f"{group} {'max' if one.limit is None else one.limit}"
        if has_qos:
            yield from [*min_lines(group, one.request), *high_lines(group, one.limit, one.request, node)]
        elif one.asked is not None:
            left.append(f"{one.name} {one.asked}")
    if left:
        yield f"# left out without --memory-qos: requests of {pod.path}: {', '.join(left)}"


def limit_lines(path: str, has_qos: bool, node_word: Optional[str]) -> List[str]:
    """The lines of limits.txt for all pods, whose groups are /POD/CONTAINER; with what MemoryQoS sets if that is wanted."""
    if node_word is not None and not has_qos:
        raise Fault("--node goes with --memory-qos")
    node = None if node_word is None else read_amount(node_word)
    return [QOS_HEAD] * has_qos + [line for pod in read_pods(path) for line in limits_of(pod, has_qos, node)]


def names_of(path: str, whole_file: Any) -> Dict[str, str]:
    """The name of each pod by its uid, as it is and as systemd writes it, and of each container by its id."""
    names: Dict[str, str] = {}
    try:
        pods = raw_pods(path, whole_file)
        twice = names_twice(pods)
        for pod in pods:
            uid, name = pod["metadata"].get("uid"), pod["metadata"]["name"]
            if uid:
                group = pod_path(pod["metadata"].get("namespace"), name, twice)[1:]
                names[uid] = names[uid.replace("-", "_")] = group
            statuses = pod.get("status") or {}
            for kind in ("containerStatuses", "initContainerStatuses"):
                for status in statuses.get(kind) or []:
                    if status.get("containerID"):
                        names[status["containerID"].rpartition("/")[2]] = status["name"]
    except (KeyError, TypeError, AttributeError) as fault:
        raise Fault(f"{path}: a pod isn't as kubectl writes it: {fault}") from None
    return names
