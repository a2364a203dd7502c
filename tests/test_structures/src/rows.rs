//! Tests of tables of bits beside slow values: single bits, rows, two rows joined, and closures of small graphs.

mod closures;
mod slow;
mod tables;
