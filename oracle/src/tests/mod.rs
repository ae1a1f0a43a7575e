mod evaluation;
mod frames;
mod listing;
mod nodes;
mod sentences;
mod sheets;
mod verdicts;
