#!/usr/bin/env python3
"""Opens and makes files in a headless Chromium, and compares with the program scrypt."""

import functools
import hashlib
import http.server
import os
import subprocess
import tempfile
import threading
import time
import unittest
from pathlib import Path

from selenium import webdriver

TOP = Path(__file__).resolve().parents[2]
PASSWORD, CONTENT = "pässword", os.urandom(100_000)
DAMAGED = "This file is damaged."


def scrypt(command, *words, password=PASSWORD):
    command = ["scrypt", command, "-f", "--passphrase", "dev:stdin-once", *words]
    return subprocess.run(command, input=password.encode(), capture_output=True).returncode


class FilePageTest(unittest.TestCase):
    @classmethod
    def setUpClass(cls):
        handler = http.server.SimpleHTTPRequestHandler
        handler.log_message = lambda *_: None
        handler = functools.partial(handler, directory=TOP)
        server = http.server.ThreadingHTTPServer(("127.0.0.1", 0), handler)
        threading.Thread(target=server.serve_forever).start()
        cls.addClassCleanup(server.server_close)
        cls.addClassCleanup(server.shutdown)
        cls.url = f"http://127.0.0.1:{server.server_port}/examples/file_page/index.html"
        cls.folder = Path(cls.enterClassContext(tempfile.TemporaryDirectory()))
        options = webdriver.ChromeOptions()
        options.add_argument("--headless=new")
        options.add_argument("--no-sandbox")
        saved = {"download.default_directory": f"{cls.folder}/saved"}
        options.add_experimental_option("prefs", saved)
        cls.browser = webdriver.Chrome(options=options)
        cls.addClassCleanup(cls.browser.quit)
        cls.browser.implicitly_wait(300)
        phone = {"width": 360, "height": 740, "deviceScaleFactor": 1, "mobile": True}
        cls.browser.execute_cdp_cmd("Emulation.setDeviceMetricsOverride", phone)
        plain, encrypted = cls.folder / "plain", cls.folder / "encrypted"
        plain.write_bytes(CONTENT)
        scrypt("enc", "--logN=14", "-r", "8", "-p", "2", plain, encrypted)
        cls.encrypted = encrypted.read_bytes()

    def setUp(self):
        self.browser.get(self.url)

    def find(self, selector):
        return self.browser.find_element("css selector", selector)

    def choose(self, content, name):
        path = self.folder / name
        path.write_bytes(content)
        self.browser.get(self.url)
        self.find("[name=file]").send_keys(str(path))

    def submit(self, content, name, password=PASSWORD, again=None, memory="256 MiB"):
        self.choose(content, name)
        self.find("[name=go]:enabled")
        self.find("[name=password]").send_keys(password)
        self.find("[name=memory]").send_keys(memory)
        if again:
            self.find("[name=again]").send_keys(again)
        self.find("[name=go]").click()

    def shows(self, text):
        self.browser.find_element("xpath", f"//output[.='{text}']")
        width = self.browser.execute_script("return document.documentElement.scrollWidth")
        self.assertEqual(width, 360)

    def saved(self, name):
        self.find("output a").click()
        path, end = self.folder / "saved" / name, time.monotonic() + 300
        while not path.exists() or path.stat().st_size == 0:
            self.assertLess(time.monotonic(), end)
        return path

    def test_opens_what_scrypt_made(self):
        self.submit(self.encrypted, "a.bin.scrypt")
        self.shows("Opened. Save a.bin")
        self.assertEqual(self.saved("a.bin").read_bytes(), CONTENT)

    def test_refuses(self):
        whole = self.encrypted
        self.submit(whole, "a.scrypt", "another")
        self.shows("Wrong password.")
        for damaged in (whole[:-1] + bytes([whole[-1] ^ 1]), whole[:-1]):
            self.submit(damaged, "a.scrypt")
            self.shows(DAMAGED)
        for header in (whole[:96], whole[:9], whole[:8] + b"\x01" + whole[9:]):
            self.choose(header, "a.scrypt")
            self.shows(DAMAGED)
        for at, byte, costs in (
            (7, 30, "takes 1,048,576 MiB, N * r * p = 17,179,869,184"),
            (14, 4, "takes 16 MiB, N * r * p = 134,479,872"),
        ):
            costly = whole[:at] + bytes([byte]) + whole[at + 1 : 48]
            costly += hashlib.sha256(costly).digest()[:16] + whole[64:]
            self.submit(costly, "a.scrypt")
            self.shows("Rejected: the limits are 256 MiB, N * r * p = 8,388,608.")
            self.assertIn(costs, self.find("#drop").text)

    def test_makes_what_scrypt_opens(self):
        self.submit(CONTENT, "b", again="another")
        self.shows("The passwords differ.")
        self.submit(CONTENT, "b", again=PASSWORD)
        self.shows("Encrypted. Save b.scrypt")
        made, opened = self.saved("b.scrypt"), self.folder / "opened"
        self.assertEqual(scrypt("dec", made, opened), 0)
        self.assertEqual(opened.read_bytes(), CONTENT)
        self.assertEqual(scrypt("dec", made, opened, password="another"), 1)

    def test_progress_and_cancel(self):
        self.submit(CONTENT, "b", again=PASSWORD, memory="1024 MiB")
        shares = [0]
        while shares[-1] < 0.25:
            shares.append(float(self.find("progress[value]:not([hidden])").get_attribute("value")))
        self.assertEqual(shares, sorted(shares))
        self.assertGreater(len(set(shares)), 2)
        self.shows("")
        self.find("[name=cancel]").click()
        self.shows("Cancelled.")
        self.find("progress[hidden]")

    def test_drop_and_content_security_policy(self):
        self.browser.execute_script("""const dataTransfer = new DataTransfer();
            dataTransfer.items.add(new File(['content'], 'dropped'));
            document.body.dispatchEvent(new DragEvent('drop', { dataTransfer, bubbles: true }));""")
        self.find("[name=go]:enabled")
        self.assertEqual(self.find("#drop").text, "dropped")
        violated = self.browser.execute_async_script("""
            document.onsecuritypolicyviolation = (event) => arguments[0](event.violatedDirective);
            fetch('http://127.0.0.1:1/').catch(() => {});""")
        self.assertEqual(violated, "connect-src")


if __name__ == "__main__":
    unittest.main()
