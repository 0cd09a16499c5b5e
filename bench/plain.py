#!/usr/bin/env python3
"""Writes the files of a run of builds without any index: each hashed, written, synced and renamed, in the order in which ix does it.

  plain.py TRANSCRIPT STORE TO    the transcript of the builds, the store that they left, and a fresh folder

The bytes are read from the store before the clock runs. Prints seconds on the wall, of the processor, and the numbers of files and syncs.
"""
import hashlib
import os
import sys
import time


class Folder:
    def __init__(self, folder):
        self.units, self.records, self.slot = (os.path.join(folder, name) for name in ("units", "records", "slots"))
        for each in (self.units, self.records, self.slot):
            os.makedirs(each)
        self.slot += "/0"
        self.open = {each: os.open(each, os.O_RDONLY) for each in (self.units, self.records)}
        self.files = self.syncs = 0
        self.unsynced = False

    def sync(self, folder):
        os.fsync(self.open[folder])
        self.syncs += 1

    def stage(self, data):
        file = os.open(self.slot, os.O_WRONLY | os.O_CREAT | os.O_EXCL, 0o666)
        os.write(file, data)
        os.fsync(file)
        os.close(file)
        self.files += 1
        self.syncs += 1

    def put(self, data):
        path = f"{self.records}/{hashlib.sha256(data).hexdigest()}"
        try:
            with open(path, "rb") as it:
                if it.read() == data:
                    return
        except FileNotFoundError:
            pass
        self.stage(data)
        os.rename(self.slot, path)
        self.unsynced = True

    def publish(self, name, data):
        # Its name is a hash of its output path, and its last field one of its bytes.
        hashlib.sha256(name.encode()).hexdigest(), hashlib.sha256(data).digest()
        self.stage(data)
        if self.unsynced:
            self.sync(self.records)
            self.unsynced = False
        os.rename(self.slot, f"{self.units}/{name}")
        self.sync(self.units)


def read(path):
    with open(path, "rb") as it:
        return it.read()


def main():
    transcript, store, to = sys.argv[1:]
    deeds = []
    with open(transcript) as it:
        for line in it:
            words = line.split()
            if words[1:2] == ["put"]:
                deeds.append((None, read(f"{store}/records/{words[2]}")))
            elif words[1:2] == ["publish"]:
                deeds.append((words[2], read(f"{store}/units/{words[2]}")))
    folder = Folder(to)
    wall, cpu = time.monotonic(), time.process_time()
    for name, data in deeds:
        folder.publish(name, data) if name else folder.put(data)
    print(time.monotonic() - wall, time.process_time() - cpu, folder.files, folder.syncs)


main()
