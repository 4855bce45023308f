// SPDX-License-Identifier: MIT
//! Nothing: the tests are those of the crate that this package depends on.
