"""Sends requests to nginx by its Unix socket, on connections that stay open, and says how often each answer came:

    requests.py SOCKET CONNECTIONS COUNT METHOD PATH ADDRESS

An address that ends in a dot has a number after it, another for each request. The status is 1 if a request has no answer."""

import collections
import http.client
import socket
import sys
import threading


class Connection(http.client.HTTPConnection):
    def __init__(self, path: str) -> None:
        super().__init__("localhost")
        self.path = path

    def connect(self) -> None:
        self.sock = socket.socket(socket.AF_UNIX)
        self.sock.connect(self.path)


def send(path: str, numbers: range, method: str, target: str, address: str, answers: collections.Counter) -> None:
    connection = Connection(path)
    for number in numbers:
        client = f"{address}{number % 256}" if address.endswith(".") else address
        connection.request(method, target, headers={"X-Forwarded-For": client})
        response = connection.getresponse()
        response.read()
        answers[f"{response.status} {response.getheader('X-Verdict', '')}".strip()] += 1


def main(path: str, connections: str, count: str, method: str, target: str, address: str) -> None:
    counts = [collections.Counter() for _ in range(int(connections))]
    arguments = [(path, range(i, int(count), len(counts)), method, target, address, own) for i, own in enumerate(counts)]
    threads = [threading.Thread(target=send, args=each) for each in arguments]
    for thread in threads:
        thread.start()
    for thread in threads:
        thread.join()
    answers = sum(counts, collections.Counter())
    print(", ".join(f"{answer}: {times}" for answer, times in sorted(answers.items())))
    if sum(answers.values()) != int(count):
        sys.exit(f"only {sum(answers.values())} of {count} requests were answered")


main(*sys.argv[1:])
