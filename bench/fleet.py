#!/usr/bin/env python3
"""A catalog as Puppet compiles one of a whole host: sixty Debian packages in classes of the shape that modules have, with their files,
services, users, commands and lines in files.

    bench/fleet.py FOLDER [FILES] [MISSING]

Into FOLDER it writes host.json, assumed.json and packages.json. Each package has FILES (5) files, at most 10; of the first MISSING (0)
packages the configuration has no arrow behind its package. With 5 files it has 720 native resources, with 10 files 1,020.
"""
import json
import os
import sys

HERE = os.path.dirname(os.path.realpath(__file__))


class Catalog:
    """The resources and edges of a catalog."""

    def __init__(self):
        self.resources, self.edges, self.line = [], [], 0

    def add(self, kind, within, name, title, **parameters):
        """Adds a resource of a kind that Puppet tells, in a container, and returns its reference."""
        self.line += 1
        reference = f"{name}[{title}]"
        where = {"file": "/etc/puppet/modules/fleet/manifests/init.pp", "line": self.line}
        self.resources.append({"type": name, "title": title, "kind": kind, **where, "parameters": parameters})
        if within:
            self.edges.append({"source": within, "target": reference})
        return reference

    def native(self, within, name, title, **parameters):
        return self.add("compilable_type", within, name, title, **parameters)

    def class_in(self, within, title, **parameters):
        return self.add("class", within, "Class", title, **parameters)

    def text(self):
        return {"catalog_format": 2, "name": "fleet.example.com", "resources": self.resources, "edges": self.edges}


def packages():
    """Returns the listings of sixty packages."""
    found = {}
    for name in ("debian-packages", "debian-base-packages"):
        with open(f"{HERE}/{name}.json", encoding="utf-8") as it:
            found.update(json.load(it)["packages"])
    return found


def title_of(package):
    return "".join(it for it in package.title() if it.isalnum())


def fragments(catalog, within, path):
    """Adds a file that is put together of two fragments."""
    holder = catalog.add("defined_type", within, "Concat", path)
    catalog.native(holder, "Concat_file", path, path=path, format="plain", ensure="present", force=False, replace=True)
    for order, word in (("10", "head"), ("20", "body")):
        catalog.native(within, "Concat_fragment", f"{path} {word}", target=path, order=order, content=f"{word} of {path}\n")


def configuration(catalog, within, package, files):
    """Adds the files of a package: right in /etc, in a folder of the package's own, and one of fragments."""
    own = f"/etc/{package}.local.d"
    catalog.native(within, "File", f"/etc/{package}.local", ensure="file", owner="root", mode="0644", content=f"# {package}\n")
    catalog.native(within, "File", f"/etc/default/{package}.site", ensure="file", content=f"X={package}\n")
    catalog.native(within, "File", own, ensure="directory")
    fragments(catalog, within, f"{own}/10.conf")
    for number in range(4, files):
        catalog.native(within, "File", f"{own}/{number}0.conf", content=f"{number}\n")


def service(catalog, within, package, listing, own_unit):
    """Adds the service of a package and the command that its changes run; where the package has no unit, a unit of its own."""
    units = [it.rsplit("/", 1)[1][:-8] for it in listing["files"] if it.endswith(".service") and "/systemd/system/" in it]
    needs = {}
    if not units and own_unit:
        needs = {"require": catalog.native(within, "File", f"/etc/systemd/system/{package}.service", content="[Service]\n")}
    if units or own_unit:
        catalog.native(within, "Service", units[0] if units else package, ensure="running", enable=True, **needs)
    catalog.native(within, "Exec", f"{package} reload", command="/bin/true", refreshonly=True)


def module(catalog, package, listing, files, has_arrow, own_unit, before):
    """Adds the classes of a package: what is installed, then its configuration, then its service."""
    name = title_of(package)
    whole = catalog.class_in("Stage[main]", name)
    install = catalog.class_in(whole, f"{name}::Install", **({"before": f"Class[{name}::Config]"} if has_arrow else {}))
    config = catalog.class_in(whole, f"{name}::Config", notify=f"Class[{name}::Service]")
    last = catalog.class_in(whole, f"{name}::Service", require=f"Class[{name}::Install]")
    catalog.native(install, "Package", package, ensure="installed", **before)
    configuration(catalog, config, package, files)
    service(catalog, last, package, listing, own_unit)


def users(catalog, count):
    for number in range(count):
        name = f"u{number}"
        holder = catalog.add("defined_type", "Class[main]", "Account", name)
        catalog.native(holder, "Group", name, ensure="present")
        catalog.native(holder, "User", name, gid=name, managehome=True, home=f"/home/{name}")
        catalog.native(holder, "File", f"/home/{name}/.profile", content="p\n", owner=name)


def commands(catalog, count):
    """Adds commands that each make a folder, and lines in one file."""
    assumed = {}
    hosts = catalog.native("Class[main]", "File", "/etc/hosts", content="127.0.0.1 localhost\n")
    for number in range(count):
        made = f"/var/lib/fleet{number}"
        shown = catalog.native("Class[main]", "Exec", f"build {number}", command=f"/usr/bin/make {number}", creates=made)
        assumed[shown] = {"folders": [made], "creates": made}
    for number in range(20):
        catalog.native("Class[main]", "File_line", f"host {number}", path="/etc/hosts", line=f"10.0.0.{number} h{number}", require=hosts)
    return assumed


def fleet(files=5, missing=0):
    """Returns the catalog, what is assumed of it, and the listing."""
    listing = packages()
    catalog = Catalog()
    catalog.add("compilable_type", None, "Stage", "main")
    catalog.add("unknown", "Stage[main]", "Class", "main")
    own_units = 0
    for place, package in enumerate(sorted(listing)):
        has_unit = any(it.endswith(".service") and "/systemd/system/" in it for it in listing[package]["files"])
        own_unit = not has_unit and own_units < 19
        own_units += own_unit
        # (these two have files in common)
        before = {"before": "Package[mariadb-server]"} if package == "mariadb-client" else {}
        module(catalog, package, listing[package], files, place >= missing, own_unit, before)
    users(catalog, 20)
    assumed = commands(catalog, 40)
    assumed.update({"Exec": "none", "File_line": {"edits": ["/etc/hosts"]}})
    return catalog.text(), {"version": 1, "resources": assumed}, {"version": 1, "packages": listing}


def main(folder, files=5, missing=0):
    os.makedirs(folder, exist_ok=True)
    texts = fleet(int(files), int(missing))
    for name, text in zip(("host", "assumed", "packages"), texts):
        with open(f"{folder}/{name}.json", "w", encoding="utf-8") as it:
            json.dump(text, it)
    natives = [it for it in texts[0]["resources"] if it["kind"] == "compilable_type" and it["type"] != "Stage"]
    print(f"{len(natives)} native resources of {len(texts[0]['resources'])}")


if __name__ == "__main__":
    main(*sys.argv[1:])
