"""Manifests that grow, each with its listing of packages: functions of a number of resources."""
import json
import os
import random

HERE = os.path.dirname(os.path.realpath(__file__))


def shared(n, digests):
    """Packages that list one path, each with a digest, and a path of their own; pruning keeps them all."""
    packages = {}
    for i in range(n):
        files = [["/opt/shared", digests(i)], [f"/opt/own{i}", None]]
        packages[f"p{i}"] = {"files": files, "folders": []}
    manifest = "".join(f"package {{ 'p{i}': }}\n" for i in range(n))
    return manifest, {"version": 2, "packages": packages}


def workload(n):
    """Packages with a file and a service each, and four resources that pruning keeps."""
    lines, packages = [], {}
    for i in range(1, n + 1):
        lines.append(f"package {{ 'p{i}': }}")
        lines.append(f"file {{ '/opt/p{i}/p.conf': content => '{i}', require => Package['p{i}'] }}")
        lines.append(f"service {{ 'svc{i}': ensure => running, require => Package['p{i}'] }}")
        packages[f"p{i}"] = {"files": [f"/opt/p{i}/p.conf", f"/lib/systemd/system/svc{i}.service"], "folders": []}
    for name, letter in (("alpha", "a"), ("beta", "b")):
        lines.append(f"package {{ '{name}': }}")
        lines.append(f"file {{ '/etc/{name}.conf': content => '{letter}', require => Package['{name}'] }}")
        packages[name] = {"files": [f"/etc/{name}.conf"], "folders": []}
    return "\n".join(lines) + "\n", {"version": 1, "packages": packages}


def homes(n):
    """Users with their homes under one folder that isn't made; pruning keeps none of them."""
    lines = [f"user {{ 'u{i}': managehome => true, home => '/srv/homes/u{i}' }}" for i in range(n)]
    return "\n".join(lines) + "\n", {"version": 1, "packages": {}}


def failing(n):
    """Two packages that have one file with two contents, a file in a file, so that every order fails, and n other files."""
    manifest, listing = shared(2, lambda i: "de"[i])
    lines = [manifest, "file { '/f': content => 'f' }", "file { '/f/g': content => 'g' }"]
    lines += [f"file {{ '/q{i}': content => 'q' }}" for i in range(n)]
    return "\n".join(lines), listing


def listed(n):
    """A class of 40 resources, among them 12 packages that list n files each besides a configuration and a unit; nothing is kept."""
    lines, packages = [], {}
    for i in range(12):
        files = [f"/usr/lib/app{i}/d{j // 20}/f{j}" for j in range(n)]
        packages[f"app{i}"] = {"files": files + [f"/etc/app{i}/app.conf", f"/lib/systemd/system/app{i}.service"], "folders": []}
        lines.append(f"package {{ 'app{i}': }}")
        lines.append(f"file {{ '/etc/app{i}/app.conf': content => '{i}', require => Package['app{i}'] }}")
        lines.append(f"service {{ 'app{i}': ensure => running, require => Package['app{i}'] }}")
    lines.append("group { 'ops': }")
    lines.append("user { 'op': gid => 'ops', managehome => true }")
    lines.append("file { '/home/op/.profile': content => 'x', require => User['op'] }")
    lines.append("cron { 'clean': user => 'op', command => 'true' }")
    return "class site {\n" + "\n".join(lines) + "\n}\ninclude site\n", {"version": 1, "packages": packages}


def usual(n, missing):
    """Packages with a configuration file right in /etc and a service each; the files of `missing` have no arrow. Pruning keeps most."""
    lines, packages = [], {}
    for i in range(n):
        needs = "" if i in missing else f", require => Package['p{i}']"
        lines.append(f"package {{ 'p{i}': }}")
        lines.append(f"file {{ '/etc/p{i}.conf': content => '{i}'{needs} }}")
        lines.append(f"service {{ 's{i}': ensure => running, require => Package['p{i}'] }}")
        packages[f"p{i}"] = {"files": [f"/etc/p{i}/x", f"/usr/bin/p{i}", f"/lib/systemd/system/s{i}.service"], "folders": []}
    return "\n".join(lines) + "\n", {"version": 1, "packages": packages}


def host(n):
    """The same with the folder declared, and users with homes and cron jobs among them."""
    manifest, listing = usual(n, ())
    lines = ["file { ['/etc', '/home']: ensure => directory }"]
    for i in range(n // 4):
        lines.append(f"group {{ 'g{i}': }}")
        lines.append(f"user {{ 'u{i}': gid => 'g{i}', managehome => true, home => '/home/u{i}' }}")
        lines.append(f"file {{ '/home/u{i}/.profile': content => 'p', owner => 'u{i}' }}")
        lines.append(f"cron {{ 'job{i}': command => '/bin/true', user => 'u{i}', minute => {i} }}")
    return manifest + "\n".join(lines) + "\n", listing


# ---- resources that stand in one another's way


def listing_of(packages):
    """The listing of packages, each with its files and its folders."""
    return {"version": 2, "packages": {name: {"files": files, "folders": folders} for name, (files, folders) in packages.items()}}


def all_of(n, word=""):
    """Packages in one statement, with these attributes."""
    names = ", ".join(f"'p{i}'" for i in range(n))
    return f"package {{ [{names}]:{word} }}\n"


def services(n):
    """Services whose units come from packages that list all of these units alike; every package comes before every service."""
    units = [[f"/lib/systemd/system/s{j}.service", "md5:1"] for j in range(n)]
    names = ", ".join(f"'s{i}'" for i in range(n))
    manifest = f"{all_of(n).strip()} -> service {{ [{names}]: ensure => running, enable => true }}\n"
    return manifest, listing_of({f"p{i}": (units, []) for i in range(n)})


def swept_homes(n):
    """Users whose homes are folders of packages that go, one package and one user each; no arrows."""
    lines, packages = [], {}
    for i in range(n):
        lines.append(f"user {{ 'u{i}': managehome => true, home => '/h/u{i}' }}")
        lines.append(f"package {{ 'p{i}': ensure => absent }}")
        packages[f"p{i}"] = ([], [f"/h/u{(i + 1) % n}", "/h"])
    return "\n".join(lines) + "\n", listing_of(packages)


def copied(n, source):
    """Files that are copied, each from another one."""
    return "".join(f"file {{ '/f{i}': source => '{source(i)}' }}\n" for i in range(n)), listing_of({})


def copy_chain(n):
    """Each file is a copy of the one before."""
    manifest, listing = copied(n + 1, lambda i: f"/f{i - 1}")
    return manifest.split("\n", 1)[1], listing


def copy_ring(n):
    """The same, and the last is the source of the first."""
    return copied(n, lambda i: f"/f{(i + 1) % n}")


def copy_all(n):
    """All are copies of one file, which is a copy of the first of them."""
    manifest, listing = copied(n, lambda i: "/s")
    return manifest + "file { '/s': source => '/f0' }\n", listing


def mixed(n):
    """Packages that share a file and a folder; every other one goes."""
    lines = [f"package {{ 'p{i}': ensure => {'present' if i % 2 else 'absent'} }}" for i in range(n)]
    return "\n".join(lines) + "\n", listing_of({f"p{i}": ([["/d/s", "md5:1"]], ["/d"]) for i in range(n)})


def crossed(n):
    """Packages of which each two share a file of their own."""
    files = {i: [[f"/s/{min(i, j)}-{max(i, j)}", "md5:1"] for j in range(n) if j != i] for i in range(n)}
    return all_of(n), listing_of({f"p{i}": (files[i], []) for i in range(n)})


def swept(n):
    """Packages that go, each with a file in folders that all of them list."""
    return all_of(n, " ensure => absent"), listing_of({f"p{i}": ([[f"/d/e/f{i}", None]], ["/d", "/d/e"]) for i in range(n)})


def swept_chain(n):
    """Packages that go and list one chain of six folders."""
    folders = ["/d" + "".join(f"/{j}" for j in range(k)) for k in range(6)]
    return all_of(n, " ensure => absent"), listing_of({f"p{i}": ([], folders) for i in range(n)})


def removed(n):
    """Packages that go and share a file."""
    return all_of(n, " ensure => absent"), listing_of({f"p{i}": ([["/d/s", "md5:1"]], []) for i in range(n)})


def linked(n):
    """Packages that go and share three files, where links are to stand."""
    links = "".join(f"file {{ '/l{j}': ensure => link, target => '/t' }}\n" for j in range(3))
    files = [[f"/l{j}", "md5:1"] for j in range(3)]
    return all_of(n, " ensure => absent") + links, listing_of({f"p{i}": (files, []) for i in range(n)})


def under_swept(n):
    """Files that are to be absent from a folder which a package that goes sweeps."""
    files = "".join(f"file {{ '/d/f{i}': ensure => absent }}\n" for i in range(n))
    return "package { 'p': ensure => absent }\n" + files, listing_of({"p": ([], ["/d"])})


# ---- sites of real packages


def configured(draw, name, seed, missing, packages):
    """The lines on a package, on configuration right in /etc, and on its service; with a probability they have no arrow."""
    needs = f", require => Package['{name}']" if draw.random() >= missing else ""
    kind = draw.random()
    lines = [f"package {{ '{name}': ensure => installed }}"]
    if kind < 0.6:
        lines.append(f"file {{ '/etc/{name}.local': content => '{name} {seed}', owner => 'root', mode => '0644'{needs} }}")
    if kind < 0.3:
        lines.append(f"file {{ '/etc/default/{name}.site': content => 'X={name}'{needs} }}")
    units = [f.rsplit("/", 1)[1][:-8] for f in packages[name]["files"] if f.endswith(".service") and "/systemd/system/" in f]
    if units:
        lines.append(f"service {{ '{units[0]}': ensure => running, enable => true{needs} }}")
    return lines


def site(n, missing, seed=1):
    """A site of n of the thirty Debian packages in debian-packages.json, with users and cron jobs; the folders are declared."""
    draw = random.Random(seed)
    with open(f"{HERE}/debian-packages.json", encoding="utf-8") as file:
        listing = json.load(file)
    packages = listing["packages"]
    lines = ["file { ['/etc', '/etc/default', '/home']: ensure => directory }"]
    for name in draw.sample(sorted(packages), n):
        lines += configured(draw, name, seed, missing, packages)
    for i in range(n // 4):
        lines.append(f"group {{ 'g{i}': }}")
        lines.append(f"user {{ 'u{i}': gid => 'g{i}', managehome => true, home => '/home/u{i}' }}")
        lines.append(f"file {{ '/home/u{i}/.profile': content => 'p', owner => 'u{i}' }}")
        lines.append(f"cron {{ 'job{i}': command => '/bin/true', user => 'u{i}', minute => {i} }}")
    return "\n".join(lines) + "\n", listing
