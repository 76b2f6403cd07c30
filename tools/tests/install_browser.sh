#!/bin/sh
# Installs on Debian or Ubuntu what the tests of tools/ need besides a C compiler: Chromium, by which they look at the
# operator's page, and Chromium without a window, which is quicker, where there is such a package; the cross compiler of
# the step sink's chips, and the linter; and what .ci/arm needs to build and try ngc for 64-bit ARM. On Debian
# firefox-esr does for NGC_BROWSER=firefox.
# Needs root.
set -eu
apt-get update
apt-get install -y --no-install-recommends chromium fonts-dejavu-core gcc-arm-none-eabi libnewlib-arm-none-eabi \
    gcc-aarch64-linux-gnu libc6-dev-arm64-cross pyflakes3 qemu-user
if apt-cache show chromium-headless-shell >/dev/null 2>&1; then
    apt-get install -y --no-install-recommends chromium-headless-shell
fi
