/* What stands in place of a board: the card in memory with a controller, of which every 300th answer is lost where `loses` is 1. */
#ifndef MODEL_H
#define MODEL_H
void model_begin(int loses);
#endif
