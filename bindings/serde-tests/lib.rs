// SPDX-License-Identifier: MIT
//! Nothing: the tests of this package are in `tests`.
