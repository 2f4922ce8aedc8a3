#!/usr/bin/env python3
"""examples/lossy_proxy.py FROM EVERY TO [TO ..]: passes datagrams that come to the UDP port FROM on to the ports TO, all at
127.0.0.1, but for each EVERY-th, which it drops; and it sends each fourth that it passes on twice. So one sees what a reader
of the feed makes of a network that loses and repeats. It ends at Control-C."""
import socket
import sys

HOST = '127.0.0.1'
source, every, *targets = map(int, sys.argv[1:])

line = socket.socket(socket.AF_INET, socket.SOCK_DGRAM)
line.bind((HOST, source))
came = dropped = passed = 0
try:
    while True:
        datagram = line.recv(65_535)
        came += 1
        if came % every == 0:
            dropped += 1
            continue
        passed += 1
        for target in targets:
            for _ in range(2 if passed % 4 == 0 else 1):
                line.sendto(datagram, (HOST, target))
except KeyboardInterrupt:
    print(f'{came} datagrams, {dropped} dropped')
