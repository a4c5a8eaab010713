"""The scripts that the models of this folder stand for, each by its sizes; for bench/spin/run."""

ANY, TALLY = ({"cells": [0], "law": law, "param": 0, "gen": 0} for law in ("any", "tally"))


def script(cpus, tokens, threads, messages=(), version=1):
    """A script. A thread is a processor, steps, and how often they are taken; a message is its processor, whose thread 0 has it."""
    record, members = ({"record": None}, {"vars": [], "service": False}) if version == 3 else ({}, {})
    return {
        "version": version,
        "turns": 1000000,
        "idle": 1,
        "cpus": cpus,
        "tokens": [{**token, **record} for token in tokens],
        "messages": [{"of": [cpu, 0], "round": 0} for cpu in messages],
        "threads": [{"cpu": cpu, "repeat": repeat, "steps": steps, **members} for cpu, steps, repeat in threads],
    }


def crossed_lists(n):
    left = [["get", 0], ["get", 1], ["read", 0, 0], ["write", 0, 0, 8], ["yield"], ["read", 0, 0], ["rel", 1], ["rel", 0]]
    right = [["get", 1], ["get", 0], ["write", 0, 0, 7], ["rel", 0], ["rel", 1]]
    return script(n, [ANY, ANY], [(cpu, right if cpu % 2 else left, 1) for cpu in range(n)])


def philosophers(n):
    def meal(own, other):
        return [["get", own], ["get", other], ["write", own, 0, 1], ["rel", other], ["rel", own]]

    return script(n, n * [ANY], [(cpu, meal(cpu, (cpu + 1) % n), 1) for cpu in range(n)])


def readers(n):
    reader = [["gets", 0], ["read", 0, 0], ["rel", 0]]
    writer = [["get", 0], ["write", 0, 0, 7], ["rel", 0]]
    return script(n + 1, [ANY], [*((cpu, reader, 1) for cpu in range(n)), (n, writer, 1)])


def sections(cpus, of_cpu, n):
    section = [["get", 0], ["add", 0, 1], ["rel", 0]]
    return script(cpus, [TALLY], [(cpu, section, n) for cpu in range(cpus) for _ in range(of_cpu)])


def poll(n):
    look = [["gets", 0], ["read", 0, 0, {"to": 0}], ["rel", 0]]
    write = [["get", 0], ["write", 0, 0, 1], ["rel", 0]]
    return script(2, [ANY], [(0, look, n), (1, write, 1)], version=3)


def server(n):
    def service(call):
        return [["wait"], ["get", 0], ["add", 0, 1], ["rel", 0], ["reply", call, 0, 0]]

    steps = [step for call in range(n) for step in service(call)]
    calls = [(client + 1, [["do", client, 0, 0, 0, 0]], 1) for client in range(n)]
    return script(n + 1, [TALLY], [(0, steps, 1), *calls], range(1, n + 1))


# What is tried: a script's sizes by the names that its model has for them, and whether --plain takes at most some 20 seconds.
SMALL = [
    (crossed_lists, {"N": 3}, True),
    (crossed_lists, {"N": 4}, False),
    (philosophers, {"N": 4}, True),
    (philosophers, {"N": 5}, False),
    (readers, {"N": 3}, True),
    (readers, {"N": 4}, False),
    (sections, {"CPUS": 2, "OF_CPU": 2, "N": 2}, True),
    (sections, {"CPUS": 2, "OF_CPU": 3, "N": 2}, False),
    (sections, {"CPUS": 1, "OF_CPU": 1, "N": 2000}, True),
    (poll, {"N": 100}, True),
    (server, {"N": 4}, True),
    (server, {"N": 5}, False),
]
BIG = [
    (crossed_lists, {"N": 4}, True),
    (crossed_lists, {"N": 5}, False),
    (philosophers, {"N": 5}, True),
    (philosophers, {"N": 7}, False),
    (readers, {"N": 4}, True),
    (readers, {"N": 6}, False),
    (sections, {"CPUS": 2, "OF_CPU": 3, "N": 2}, True),
    (sections, {"CPUS": 2, "OF_CPU": 4, "N": 2}, False),
    (sections, {"CPUS": 1, "OF_CPU": 1, "N": 10000}, True),
    (poll, {"N": 1000}, True),
    (server, {"N": 5}, True),
    (server, {"N": 7}, False),
]
