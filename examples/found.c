int grid[16];

/* Leaves two loops at once. */
int find(int wanted) {
    int x;
    int y;
    for (x = 0; x < 4; x++)
        for (y = 0; y < 4; y++)
            if (grid[4 * x + y] == wanted) goto found;
    return -1;
found:
    return 4 * x + y;
}
