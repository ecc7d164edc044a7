#!/usr/bin/env python3
"""Plays session W6: two nodes submit a frame each, the one that loses arbitration is buffered and
goes in the second round. Every line is what the calls answered or what is read back from bytes."""
from kettlefrost import Bus, CanTransmit, Idle, Register, operations


def text(operation):
    data = f" data {operation.data.hex(' ').upper()}" if operation.data else ""
    return f"{operation.code.words} ID {operation.id}{data}"


def print_operations(buffer, before):
    for _, operation, _ in operations(buffer):
        print(before + text(operation))


def submit(bus, registers, node, frame):
    buffer = frame.encode()
    bus.submit(node, buffer)
    registers[node].enter(buffer)
    print_operations(buffer, f"node {node} submits ")


def collect(bus, registers, node):
    buffer = bus.collect(node)
    registers[node].read(buffer)
    print(f"node {node} collects {len(buffer)} bytes")
    print_operations(buffer, "  ")


def print_open(registers):
    for node, register in enumerate(registers):
        print(f"open at node {node}:", *(register.open or ["none"]))


def play_round(bus):
    number = bus.round_number + 1
    result = bus.round()
    if isinstance(result, Idle):
        print(f"round {number}: idle")
        return
    fate = "errored" if result.errored else "delivered"
    print(f"round {number}: node {result.sender} sent ID {result.id}, {fate}, age {result.age}")


def main():
    bus = Bus(3)
    print(f"start: {bus.node_count} nodes")
    registers = [Register() for _ in range(bus.node_count)]
    submit(bus, registers, 0, CanTransmit(15, data=bytes.fromhex("AA BB")))
    submit(bus, registers, 1, CanTransmit(16))
    print_open(registers)
    for _ in range(3):
        play_round(bus)
    for node in range(bus.node_count):
        collect(bus, registers, node)
    print_open(registers)


main()
