int grid[64];

/* Leaves three loops at once. */
int find(int wanted) {
    int x;
    int y;
    int z;
    for (x = 0; x < 4; x++) {
        for (y = 0; y < 4; y++) {
            for (z = 0; z < 4; z++) {
                if (grid[16 * x + 4 * y + z] == wanted) goto found;
            }
        }
    }
    return -1;
found:
    return 16 * x + 4 * y + z;
}
