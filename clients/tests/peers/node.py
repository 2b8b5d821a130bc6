#!/usr/bin/env python3
"""Node's fb-watchman and Jest's crawler over Railburnet's server: node.py

They are in Debian's packages jest and node-sane. Where these can't be installed beside another
Node, they are unpacked into a folder.
"""
import glob
import json
import os
import subprocess
import sys

from peer import folder, need, railburnet, tree

PACKAGES = """jest node-sane node-jest-worker node-graceful-fs node-micromatch node-anymatch node-normalize-path node-braces node-fill-range
node-to-regex-range node-is-number node-ci-info node-chalk node-ansi-styles node-supports-color
node-has-flag node-color-convert
node-color-name node-resolve""".split()
MODULES = "/usr/share/nodejs"
SCRIPT = r"""
const top = process.argv[2], watchman = require("fb-watchman"), fs = require("fs");
const client = new watchman.Client();
const ask = words => new Promise((done, fail) => client.command(words, (error, told) => error ? fail(error) : done(told)));
const capable = wanted => new Promise((done, fail) => client.capabilityCheck(wanted, (error, told) => error ? fail(error) : done(told)));
(async () => {
  const tried = {};
  const told = await capable({optional: ["scm-git", "suffix-set"], required: ["relative_root", "term-match", "cmd-subscribe"]});
  tried.capabilities = told.capabilities["relative_root"] === true && told.capabilities["scm-git"] === false;
  tried.refused = await capable({required: ["scm-hg"]}).then(() => false, () => true);
  const watch = (await ask(["watch-project", top])).watch;
  tried.watch = watch === top;
  const clock = (await ask(["clock", watch])).clock;
  const pushed = new Promise(done => client.on("subscription", push => push.files.some(f => f.name === "new.js") && done(true)));
  await ask(["subscribe", watch, "x", {fields: ["name", "size", "exists", "mtime_ms", "type"], since: clock, expression: ["suffix", "js"]}]);
  setTimeout(() => fs.writeFileSync(top + "/new.js", "1"), 200);
  tried.push = await pushed;
  const since = await ask(["query", watch, {since: clock, fields: ["name", "mtime_ms", "new"]}]);
  tried.since = since.files.length === 1 && since.files[0].name === "new.js" && since.files[0].new === true
    && Number(since.files[0].mtime_ms) === Math.floor(fs.statSync(top + "/new.js").mtimeMs);
  client.end();
  const crawler = require(process.argv[3]), crawl = crawler.watchmanCrawl || crawler.default || crawler;
  const options = data => ({data, extensions: ["js", "py"], ignore: () => false, rootDir: top, roots: [top], computeSha1: false, forceNodeFilesystemAPI: false});
  const names = made => [...made.hasteMap.files.keys()].sort();
  const first = await crawl(options({clocks: new Map(), files: new Map()}));
  const disk = fs.readdirSync(top, {recursive: true}).filter(n => /\.(js|py)$/.test(n)).sort();
  tried.crawl = JSON.stringify(names(first)) === JSON.stringify(disk);
  fs.writeFileSync(top + "/later.js", "1"); fs.unlinkSync(top + "/new.js");
  const second = await crawl(options(first.hasteMap));
  tried.secondCrawl = [...second.changedFiles.keys()].join() === "later.js" && [...second.removedFiles.keys()].join() === "new.js";
  const third = await crawl(options(second.hasteMap));
  tried.thirdCrawl = third.changedFiles.size === 0 && third.removedFiles.size === 0;
  console.log(JSON.stringify(tried));
})().catch(error => { console.log(JSON.stringify({error: String(error && error.stack)})); process.exit(1); });
"""


def modules(at):
    """Where the modules are: of the system, or unpacked into a folder; None if they can't be
    had."""
    if os.path.isdir(f"{MODULES}/jest-haste-map"):
        return MODULES
    subprocess.run(
        ["apt-get", "download", *PACKAGES],
        cwd=at,
        stdout=subprocess.DEVNULL,
        stderr=subprocess.DEVNULL,
        check=False,
    )
    for package in glob.glob(f"{at}/*.deb"):
        subprocess.run(["dpkg", "-x", package, f"{at}/node"], check=False)
    found = f"{at}/node{MODULES}"
    return found if os.path.isdir(f"{found}/jest-haste-map") else None


def main():
    need("command -v node", "nodejs")
    with folder() as at:
        found = modules(at)
        if found is None:
            print("node.py: not run: no jest")
            return 0
        # The package keeps what it bundles in places of its own.
        places = [found, f"{found}/jest/node_modules", *glob.glob(f"{found}/jest*/node_modules")]
        top = at + "/w"
        os.makedirs(top)
        with open(top + "/.watchmanconfig", "wb"):
            pass
        tree(top, 60)
        script = at + "/trial.js"
        with open(script, "w", encoding="utf-8") as file:
            file.write(SCRIPT)
        with railburnet(at) as (path, _):
            done = subprocess.run(
                ["node", script, top, f"{found}/jest-haste-map/build/crawlers/watchman.js"],
                env={**os.environ, "WATCHMAN_SOCK": path, "NODE_PATH": ":".join(places)},
                timeout=120,
                stdout=subprocess.PIPE,
                stderr=subprocess.PIPE,
                check=False,
            )
        try:
            tried = json.loads(done.stdout)
        except ValueError:
            tried = {"error": (done.stdout + done.stderr).decode("utf-8", "replace")[-1500:]}
        wrong = [name for name, true in tried.items() if true is not True]
        if wrong:
            print("wrong:", {name: tried[name] for name in wrong})
        print(f"fb-watchman and Jest's crawler: {len(tried)} tried, {len(wrong)} wrong")
    return wrong != []


if __name__ == "__main__":
    sys.exit(main())
