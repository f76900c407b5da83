//! The host's types over the proved library, from a payload sent to a payload read.
mod c_example;
mod decibels;
mod drawn;
mod drift;
mod handing_on;
mod in_hand;
mod reading;
mod refusals;
mod residuals;
mod signal;
mod silence;
mod soft_order;
mod steps;
mod words;
