#!/usr/bin/env bash
# Whether the public calls of the crates are as main.rattle writes them: it is compiled before any proof, and nothing of it is run.
# Wants rt on the path; a minute or two. The status is 0 if it compiles; else it says what doesn't.
set -euo pipefail

. "$(dirname "$0")/../program.sh"

ONLY_COMPILE=1
begin surface_bench tmmbr_tuple rate_cert bounding_set rtp_packet rtcp_compound rtcp_feedback members rewrite resend_ring rate_desk routes core_steps workers commands arrayvec circular_buffer
build
