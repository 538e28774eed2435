/* Dining philosophers who take their left fork first, for SPIN. */
#define N 10

bool taken[N];

active [N] proctype philosopher() {
  do
  :: skip; /* becomes hungry */
     atomic { !taken[_pid] -> taken[_pid] = true };
     atomic { !taken[(_pid + 1) % N] -> taken[(_pid + 1) % N] = true };
     d_step { taken[_pid] = false; taken[(_pid + 1) % N] = false }
  od
}
