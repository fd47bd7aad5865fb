// SPDX-License-Identifier: MIT OR Apache-2.0
// (example.org stands for where it will be published)
module example.org/epaxos

go 1.19
