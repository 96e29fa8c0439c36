#!/usr/bin/env python3
"""Prints an audit log of two minutes of a busy cluster: 100,000 events of nodes, controllers, people and the accounts of 40 teams.

From the thirtieth second to the ninetieth the account `importer` of the namespace `batch` lists far more than its level can serve, and its server turned a
part of that away. A server writes an event when the request has ended, so a long one stands late.

The server's own log can be written beside it: a line of each request, as klog writes it with -v=3. There the lists of `importer` take one to four seats,
one of twenty other lists takes ten, and each other request takes one.

usage: log.py [EVENTS [SERVERLOG]]
"""

import json
import random
import sys
from functools import cache
from heapq import heappop, heappush

count = int(sys.argv[1]) if len(sys.argv) > 1 else 100_000
server_log = open(sys.argv[2], "w") if len(sys.argv) > 2 else None
draw, draw_seats, write = random.Random(1040).random, random.Random(1041).random, sys.stdout.write
as_json = json.JSONEncoder(separators=(",", ":")).encode
LEASE, PODS = {"resource": "leases", "apiGroup": "coordination.k8s.io", "apiVersion": "v1"}, {"resource": "pods", "apiVersion": "v1"}


# a hundred thousand events are of some hundred users and targets: each is written once, beside its name or its resource
@cache
def account(namespace, name):
    return known(f"system:serviceaccount:{namespace}:{name}", "system:serviceaccounts", f"system:serviceaccounts:{namespace}")


@cache
def known(name, *groups):
    return user(name, *groups, "system:authenticated")


@cache
def user(name, *groups):
    return name, as_json({"username": name, "groups": groups})


@cache
def leases(namespace):
    return "leases", f',"objectRef":{as_json({**LEASE, "namespace": namespace})}'


@cache
def pods(namespace):
    return "pods", f',"objectRef":{as_json({**PODS, "namespace": namespace})}'


def request(second):
    """Who asks at this time, for what, how long that runs, and whether the server turned it away."""
    kind, pick, long = draw(), int(40 * draw()), draw()
    if 30 <= second < 90 and kind < 0.42:
        return account("batch", "importer"), "list", pods("batch"), 1 + 2 * long, draw() < 0.5
    if kind < 0.50:
        return known(f"system:node:node-{pick}", "system:nodes"), "update", leases("kube-node-lease"), 0.01 * long, False
    if kind < 0.60:
        return known(f"system:node:node-{pick}", "system:nodes"), "get", pods(f"team-{pick}"), 0.02 * long, False
    if kind < 0.66:
        return known("system:kube-controller-manager"), "patch", pods(f"team-{pick}"), 0.05 * long, False
    if kind < 0.70:
        return account("kube-system", "namespace-controller"), "list", pods(f"team-{pick}"), 0.1 * long, False
    if kind < 0.72:
        return known("system:kube-controller-manager"), "update", leases("kube-system"), 0.01 * long, False
    if kind < 0.75:
        return user("system:anonymous", "system:unauthenticated"), "get", None, 0.001 * long, False
    if kind < 0.80:
        return known(f"user-{pick}"), "get", pods(f"team-{pick}"), 2 * long**4, False
    return account(f"team-{pick}", "app"), "list", pods(f"team-{pick}"), 0.4 * long, False


@cache
def schema(name, resource):
    """The schema of the request in the example's cluster, and its level."""
    if not resource:
        return "probes", "exempt"
    if resource == "leases":
        return ("system-node-high", "node-high") if "node" in name else ("system-leader-election", "leader-election")
    if name.startswith("system:node:"):
        return "system-nodes", "system"
    if name == "system:kube-controller-manager":
        return "kube-controller-manager", "workload-high"
    if name.startswith("system:serviceaccount:kube-system:"):
        return "kube-system-service-accounts", "workload-high"
    return ("service-accounts", "workload-low") if "serviceaccount" in name else ("global-default", "global-default")


def seats(name, verb):
    """How many seats the request takes."""
    pick = draw_seats()
    if name.endswith(":importer"):
        return 1 + int(4 * pick)
    return 10 if verb == "list" and pick < 0.05 else 1


def line(number, user, verb, resource, uri, code, ended, runs):
    """What the server's own log says of the request, which ended at this time and ran so many microseconds."""
    (name, level), took = schema(user, resource), f"{runs / 1000:.3f}ms"
    said = f'verb="{verb.upper()}" URI="{uri}" latency="{took}" userAgent="" audit-ID="{number:08x}" srcIP="10.0.0.7:443"'
    asked = f'apf_pl="{level}" apf_fs="{name}" apf_iseats={seats(user, verb)} apf_fseats=0 apf_additionalLatency="0s"'
    return f'I1125 {ended[11:-1]}       1 httplog.go:132] "HTTP" {said} {asked} apf_execution_time="{took}" resp={code}\n'


def time_text(micros):
    return f"2026-11-25T12:{micros // 60_000_000:02}:{micros // 1_000_000 % 60:02}.{micros % 1_000_000:06}Z"


def put(text, said):
    write(text)
    if server_log:
        server_log.write(said)


now, ending = 0, []
for number in range(count):
    now += int(2_400 * draw())
    (name, who), verb, target, runs, away = request(now / 1_000_000)
    end = now + int(1_000_000 * (0 if away else runs))
    (resource, what), uri, code, ended = target or ("", ""), "/api/v1" if target else "/healthz", 429 if away else 200, time_text(end)
    event = (
        f'{{"kind":"Event","apiVersion":"audit.k8s.io/v1","level":"Metadata","auditID":"{number:08x}","stage":"ResponseComplete","requestURI":"{uri}","verb":"{verb}","user":{who}'
        f'{what},"responseStatus":{{"code":{code}}},"requestReceivedTimestamp":"{time_text(now)}","stageTimestamp":"{ended}"}}\n'
    )
    heappush(ending, (end, number, event, line(number, name, verb, resource, uri, code, ended, end - now) if server_log else ""))
    while ending and ending[0][0] <= now:
        put(*heappop(ending)[2:])
for it in sorted(ending):
    put(*it[2:])
