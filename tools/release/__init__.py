"""Makes the packages of a release from one commit, and the folder of a proved program.

Where to look: `__main__` has the words; `packages` makes all packages of a checkout: `programs`
builds the plain program, `debian` makes the .deb, `wheel` the wheel of yoke, `bundle` the tar with
the static program, `completion` what bash completes. `proved` makes the folder of a proved program,
which isn't published. `record` writes RELEASE. `try_package` installs the .deb in a new Debian, and
times a first run from a clone there.
"""
