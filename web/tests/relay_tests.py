#!/usr/bin/env python3
"""A call by way of a TURN server (Debian's coturn): two namespaces that reach a third one, where it runs, and not each
other. The server stands in the page's field, with user and password."""

import os
import shutil
import subprocess
import time
import unittest

from browsers import CallTest, Page, call_by_link
from selenium.common.exceptions import TimeoutException

NETS = {"a": "198.51.100", "b": "203.0.113"}


@unittest.skipUnless(shutil.which("turnserver"), "there is no turnserver: apt install coturn")
class RelayTest(CallTest):
    def setUp(self) -> None:
        self.names = {letter: f"relay{os.getpid()}{letter}" for letter in "abt"}
        for name in self.names.values():
            if subprocess.run(["ip", "netns", "add", name], capture_output=True).returncode:
                self.skipTest("no network namespaces can be had")
            self.addCleanup(subprocess.run, ["ip", "netns", "del", name])
        relay = self.names["t"]
        self.ip("-n", relay, "link", "set", "lo", "up")
        for letter, net in NETS.items():
            name = self.names[letter]
            self.ip("link", "add", "way", "netns", name, "type", "veth", "peer", "name", f"to_{letter}", "netns", relay)
            for where, device, host in ((name, "way", f"{net}.2"), (relay, f"to_{letter}", f"{net}.1")):
                self.ip("-n", where, "addr", "add", f"{host}/24", "dev", device)
                self.ip("-n", where, "link", "set", device, "up")
            self.ip("-n", name, "link", "set", "lo", "up")
            self.ip("-n", name, "route", "add", "default", "via", f"{net}.1")
        subprocess.run(["ip", "netns", "exec", relay, "sysctl", "-qw", "net.ipv4.ip_forward=0"], check=True)
        words = [
            "-n",
            "--lt-cred-mech",
            "--user=ada:tea",
            "--realm=relay",
            "--no-tls",
            "--no-dtls",
            "--no-cli",
            "--log-file=stdout",
            *(f"--listening-ip={net}.1" for net in NETS.values()),
            *(f"--relay-ip={net}.1" for net in NETS.values()),
        ]
        how = {"stdout": subprocess.DEVNULL, "stderr": subprocess.DEVNULL}
        server = subprocess.Popen(["ip", "netns", "exec", relay, "turnserver", *words], **how)
        self.addCleanup(lambda: (server.terminate(), server.wait()))
        time.sleep(1)

    @staticmethod
    def ip(*words: str) -> None:
        subprocess.run(["ip", *words], check=True)

    def pages(self, password: str) -> list[Page]:
        pages = []
        for letter, net in NETS.items():
            page = self.enterContext(Page(within=self.names[letter]))
            page.fill("servers", f"turn:ada:{password}@{net}.1:3478")
            pages.append(page)
        return pages

    def test_a_call_by_a_relay(self) -> None:
        ada, bob = self.pages("tea")
        # A page that is opened anew has an empty field; the link leads to one that is open.
        call_by_link(ada, bob, server=f"turn:ada:tea@{NETS['b']}.1:3478")
        for page in (ada, bob):
            page.run("document.getElementById('numbers').open = true")
        time.sleep(10)
        for page in (ada, bob):
            print(f"by a relay: {page.text('share')}; {page.text('figures')}")
            self.assert_share(page, 80)

    def test_a_wrong_password_leads_nowhere(self) -> None:
        ada, bob = self.pages("coffee")
        with self.assertRaises(TimeoutException):
            call_by_link(ada, bob, server=f"turn:ada:coffee@{NETS['b']}.1:3478", seconds=45)
        ada.until(lambda: ada.text("someone_told").startswith("There is no way through between the two browsers."), 90)


if __name__ == "__main__":
    unittest.main()
