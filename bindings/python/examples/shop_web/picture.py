"""Draws the picture of the shop: starts it, and has headless Chromium look once its plain half is torn.

usage: python3 examples/shop_web/picture.py FILE.png
"""

import json
import os
import shutil
import subprocess
import sys
import time
import urllib.request

HERE = os.path.dirname(os.path.abspath(__file__))


def main() -> None:
    browser = shutil.which("chromium") or sys.exit("picture: chromium is not installed")
    running = subprocess.Popen([sys.executable, HERE, "--port", "0", "--pause", "0.4"], stdout=subprocess.PIPE, text=True)
    try:
        address = running.stdout.readline().split()[0]
        torn = 0
        while torn < 5:
            time.sleep(0.2)
            with urllib.request.urlopen(f"{address}page.json", timeout=60) as answer:
                torn = json.load(answer)["plain"]["torn"]
        subprocess.run([browser, "--headless", "--no-sandbox", "--disable-gpu", "--disable-dev-shm-usage", "--hide-scrollbars", "--window-size=960,560",
                        f"--screenshot={os.path.abspath(sys.argv[1])}", address], check=True, stderr=subprocess.DEVNULL)
    finally:
        running.terminate()
        running.wait()


if __name__ == "__main__":
    main()
