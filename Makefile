# `make` alone prints this list. The times are of four processors, the first time and later.
SCRIPT ?= examples/first_write.json
PREFIX ?= /usr/local
EARLIER ?=
CRATE ?=
ONLY ?=
BASE ?=
FOLDER ?=
export SCRIPT PREFIX EARLIER CRATE ONLY BASE FOLDER

.PHONY: help check gate quick docs hook run try examples prove wrong test install dist dist-test bench sweep hostile soak c-test c-wrong every-test python-test page-test qemu renode systemc schema clean

help:
	@tools/dev/targets

check:
	@tools/dev/check "$$CRATE" "$$ONLY"

gate:
	@tools/dev/gate "$$CRATE"

quick:
	@tools/dev/quick $${BASE:+"$$BASE"}

docs:
	@tools/dev/docs

hook:
	@tools/dev/hook

run:
	@tools/dev/run "$$SCRIPT"

try:
	@tools/dev/run "$$SCRIPT" unproved

examples:
	tools/dev/try_examples

prove:
	@tools/build/prove

wrong:
	@tools/build/prove ccan_lab
	@tools/build/prove ccan_c
	@tools/build/libraries --of-gate ccan_lab ccan_c
	tools/test/refuse_wrong

test:
	tools/test/gate

install:
	@tools/build/install "$$PREFIX"

dist:
	@tools/build/dist $${EARLIER:+"$$EARLIER"}

dist-test:
	tools/test/check_dist

bench:
	@tools/bench/all

sweep:
	@tools/build/prove
	tools/test/refuse_memory crates/ccan/out/ccan script examples/spent_quota.json examples/spent_quota.json.stdout
	tools/test/refuse_memory crates/ccan/out/ccan script examples/spent_quota.json examples/spent_quota.json.stdout threads
	tools/test/refuse_memory crates/ccan/out/ccan script examples/spent_quota.json /dev/null walk
	tools/test/refuse_memory crates/ccan/out/ccan script tools/test/sweep/every_line.json tools/test/sweep/every_line.json.stdout
	tools/test/refuse_memory crates/ccan/out/ccan script tools/test/sweep/every_line.json tools/test/sweep/every_line.json.stdout threads
	@tools/build/prove test_speed
	tools/test/refuse_memory crates/test_speed/out/test_speed opening

hostile:
	@tools/build/prove
	tools/test/fail_streams crates/ccan/out/ccan examples/first_write.json
	tools/test/spoil_scripts crates/ccan/out/ccan examples/*.json
	tools/test/check_faulty_scripts crates/ccan/out/ccan
	@tools/build/prove ccan_lab
	tools/test/check_lab crates/ccan_lab/out/ccan_lab

soak:
	@tools/build/prove
	tools/test/soak crates/ccan/out/ccan
	@tools/build/prove ccan_lab
	tools/test/check_listed crates/ccan/out/ccan crates/ccan_lab/out/ccan_lab 1000 examples/threads/*.json examples/outcomes/*.json
	tools/test/check_second_model crates/ccan/out/ccan crates/ccan_lab/out/ccan_lab 5000 2
	tools/test/check_second_model crates/ccan/out/ccan crates/ccan_lab/out/ccan_lab files examples/threads/*.json

c-test:
	@tools/test/c_test

c-wrong:
	@tools/test/c_wrong

every-test:
	@tools/test/check_every

python-test:
	@tools/test/check_python

qemu:
	tools/test/check_qemu $${FOLDER:+"$$FOLDER"}

renode:
	tools/test/check_renode

systemc:
	tools/test/check_systemc

page-test:
	@tools/build/prove ccan_lab
	tools/test/check_page crates/ccan_lab/out/ccan_lab
	tools/test/check_page_in_browser crates/ccan_lab/out/ccan_lab

schema:
	tools/test/check_documents

clean:
	rm -rf out crates/*/out
