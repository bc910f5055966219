A: SHOW block_size;
A: SHOW full_page_writes;
A: SHOW data_checksums;
