/* The code of the programs in rate/, as docs/MACHINE.md translates them. Behind each line of bytes stand its place and its
   instructions, above each program where its variables lie, and where its procedure begins if it has one. */

/* Sum: outer, inner and sum at 0, 1 and 2 */
static uint8_t sum[] = {
    0x68, 0, 10,                                                /*  0  ENT 10 */
    0x01, 0, 1, 0x01, 0, 60, 0x01, 0, 1, 0x77, 0, 4, 0, 0, 71,  /*  3  LIW 1, LIW 60, LIW 1, FRI 4 0 71 */
    0x20, 0, 4, 0x26, 0, 0,                                     /* 18  LLW 4, SGW 0 */
    0x01, 0, 0, 0x26, 0, 2,                                     /* 24  LIW 0, SGW 2 */
    0x01, 0, 1, 0x01, 78, 32, 0x01, 0, 1, 0x77, 0, 7, 0, 0, 66, /* 30  LIW 1, LIW 20000, LIW 1, FRI 7 0 66 */
    0x20, 0, 7, 0x26, 0, 1,                                     /* 45  LLW 7, SGW 1 */
    0x24, 0, 2, 0x01, 0, 3, 0x40, 0x26, 0, 2,                   /* 51  LGW 2, LIW 3, ADC, SGW 2 */
    0x78, 0, 7, 0, 45,                                          /* 61  FRN 7 45 */
    0x78, 0, 4, 0, 18,                                          /* 66  FRN 4 18 */
    0x6a,                                                       /* 71  RTN */
};

/* Range: the same */
static uint8_t range[] = {
    0x68, 0, 10,                                                      /*  0  ENT 10 */
    0x01, 0, 1, 0x01, 0, 60, 0x01, 0, 1, 0x77, 0, 4, 0, 0, 81,        /*  3  LIW 1, LIW 60, LIW 1, FRI 4 0 81 */
    0x20, 0, 4, 0x26, 0, 0,                                           /* 18  LLW 4, SGW 0 */
    0x01, 0, 0, 0x39, 0, 0, 0xea, 0x60, 0x26, 0, 2,                   /* 24  LIW 0, RGC 0 60000, SGW 2 */
    0x01, 0, 1, 0x01, 78, 32, 0x01, 0, 1, 0x77, 0, 7, 0, 0, 76,       /* 35  LIW 1, LIW 20000, LIW 1, FRI 7 0 76 */
    0x20, 0, 7, 0x26, 0, 1,                                           /* 50  LLW 7, SGW 1 */
    0x24, 0, 2, 0x01, 0, 3, 0x40, 0x39, 0, 0, 0xea, 0x60, 0x26, 0, 2, /* 56  LGW 2, LIW 3, ADC, RGC 0 60000, SGW 2 */
    0x78, 0, 7, 0, 50,                                                /* 71  FRN 7 50 */
    0x78, 0, 4, 0, 18,                                                /* 76  FRN 4 18 */
    0x6a,                                                             /* 81  RTN */
};

/* Counting: turn, seed, i, k and n at 0 to 4, counts at 5, numbers at 261 */
static uint8_t counting[] = {
    0x68, 0, 22,                                                  /*   0  ENT 22 */
    0x01, 0, 1, 0x01, 0, 20, 0x01, 0, 1, 0x77, 0, 4, 0, 1, 56,    /*   3  LIW 1, LIW 20, LIW 1, FRI 4 0 312 */
    0x20, 0, 4, 0x26, 0, 0,                                       /*  18  LLW 4, SGW 0 */
    0x01, 0, 1, 0x26, 0, 1,                                       /*  24  LIW 1, SGW 1 */
    0x01, 0, 0, 0x01, 39, 15, 0x01, 0, 1, 0x77, 0, 7, 0, 0, 94,   /*  30  LIW 0, LIW 9999, LIW 1, FRI 7 0 94 */
    0x20, 0, 7, 0x26, 0, 2,                                       /*  45  LLW 7, SGW 2 */
    0x24, 0, 1, 0x01, 0, 5, 0x42, 0x01, 39, 23, 0x44, 0x26, 0, 1, /*  51  LGW 1, LIW 5, MLC, LIW 10007, MDC, SGW 1 */
    0x2d, 1, 5, 0x24, 0, 2, 0x39, 0, 0, 39, 15, 0x37, 0, 0, 0, 1, /*  65  LAG 261, LGW 2, RGC 0 9999, IXC 0 1 */
    0x24, 0, 1, 0x01, 1, 0, 0x44, 0x31,                           /*  81  LGW 1, LIW 256, MDC, STI */
    0x78, 0, 7, 0, 45,                                            /*  89  FRN 7 45 */
    0x01, 0, 0, 0x01, 0, 255, 0x01, 0, 1, 0x77, 0, 7, 0, 0, 140,  /*  94  LIW 0, LIW 255, LIW 1, FRI 7 0 140 */
    0x20, 0, 7, 0x26, 0, 3,                                       /* 109  LLW 7, SGW 3 */
    0x2d, 0, 5, 0x24, 0, 3, 0x39, 0, 0, 0, 255, 0x37, 0, 0, 0, 1, /* 115  LAG 5, LGW 3, RGC 0 255, IXC 0 1 */
    0x01, 0, 0, 0x31,                                             /* 131  LIW 0, STI */
    0x78, 0, 7, 0, 109,                                           /* 135  FRN 7 109 */
    0x01, 0, 0, 0x01, 39, 15, 0x01, 0, 1, 0x77, 0, 7, 0, 0, 205,  /* 140  LIW 0, LIW 9999, LIW 1, FRI 7 0 205 */
    0x20, 0, 7, 0x26, 0, 2,                                       /* 155  LLW 7, SGW 2 */
    0x2d, 0, 5, 0x2d, 1, 5, 0x24, 0, 2,                           /* 161  LAG 5, LAG 261, LGW 2 */
    0x39, 0, 0, 39, 15, 0x37, 0, 0, 0, 1, 0x30,                   /* 170  RGC 0 9999, IXC 0 1, LDI */
    0x39, 0, 0, 0, 255, 0x37, 0, 0, 0, 1,                         /* 181  RGC 0 255, IXC 0 1 */
    0x03, 0x01, 0, 1, 0x05, 0x30, 0x05, 0x40, 0x31,               /* 191  DUP, LIW 1, SWP, LDI, SWP, ADC, STI */
    0x78, 0, 7, 0, 155,                                           /* 200  FRN 7 155 */
    0x01, 0, 0, 0x26, 0, 4,                                       /* 205  LIW 0, SGW 4 */
    0x01, 0, 0, 0x01, 0, 255, 0x01, 0, 1, 0x77, 0, 7, 0, 1, 51,   /* 211  LIW 0, LIW 255, LIW 1, FRI 7 0 307 */
    0x20, 0, 7, 0x26, 0, 3,                                       /* 226  LLW 7, SGW 3 */
    0x01, 0, 1, 0x2d, 0, 5, 0x24, 0, 3, 0x39, 0, 0, 0, 255,       /* 232  LIW 1, LAG 5, LGW 3, RGC 0 255 */
    0x37, 0, 0, 0, 1, 0x30, 0x01, 0, 1, 0x77, 0, 10, 0, 1, 46,    /* 246  IXC 0 1, LDI, LIW 1, FRI 10 0 302 */
    0x20, 0, 10, 0x26, 0, 2,                                      /* 261  LLW 10, SGW 2 */
    0x2d, 1, 5, 0x24, 0, 4, 0x39, 0, 0, 39, 15, 0x37, 0, 0, 0, 1, /* 267  LAG 261, LGW 4, RGC 0 9999, IXC 0 1 */
    0x24, 0, 3, 0x31,                                             /* 283  LGW 3, STI */
    0x24, 0, 4, 0x01, 0, 1, 0x40, 0x26, 0, 4,                     /* 287  LGW 4, LIW 1, ADC, SGW 4 */
    0x78, 0, 10, 1, 5,                                            /* 297  FRN 10 261 */
    0x78, 0, 7, 0, 226,                                           /* 302  FRN 7 226 */
    0x78, 0, 4, 0, 18,                                            /* 307  FRN 4 18 */
    0x6a,                                                         /* 312  RTN */
};

/* Records: turn, seed, last and i at 0 to 3, third at 4, items at 8; number, key, letter and odd are the words of an item */
static uint8_t records[] = {
    0x68, 0, 17,                                                   /*   0  ENT 17 */
    0x01, 0, 1, 0x01, 0, 6, 0x01, 0, 1, 0x77, 0, 4, 0, 1, 84,      /*   3  LIW 1, LIW 6, LIW 1, FRI 4 0 340 */
    0x20, 0, 4, 0x26, 0, 0,                                        /*  18  LLW 4, SGW 0 */
    0x01, 0, 1, 0x26, 0, 1,                                        /*  24  LIW 1, SGW 1 */
    0x01, 0, 0, 0x01, 1, 43, 0x01, 0, 1, 0x77, 0, 7, 0, 0, 146,    /*  30  LIW 0, LIW 299, LIW 1, FRI 7 0 146 */
    0x20, 0, 7, 0x26, 0, 3,                                        /*  45  LLW 7, SGW 3 */
    0x24, 0, 1, 0x01, 0, 5, 0x42, 0x01, 39, 23, 0x44, 0x26, 0, 1,  /*  51  LGW 1, LIW 5, MLC, LIW 10007, MDC, SGW 1 */
    0x2d, 0, 8, 0x24, 0, 3,                                        /*  65  LAG 8, LGW 3 */
    0x39, 0, 0, 1, 43, 0x37, 0, 0, 0, 4, 0x22, 0, 10,              /*  71  RGC 0 299, IXC 0 4, SLW 10 */
    0x20, 0, 10, 0x33, 0, 0, 0x24, 0, 3, 0x31,                     /*  84  LLW 10, ADF 0, LGW 3, STI */
    0x20, 0, 10, 0x33, 0, 1, 0x24, 0, 1, 0x31,                     /*  94  LLW 10, ADF 1, LGW 1, STI */
    0x20, 0, 10, 0x33, 0, 2, 0x24, 0, 1, 0x01, 0, 26, 0x44,        /* 104  LLW 10, ADF 2, LGW 1, LIW 26, MDC */
    0x01, 0, 65, 0x40, 0x39, 0, 0, 0, 255, 0x31,                   /* 117  LIW 65, ADC, RGC 0 255, STI */
    0x20, 0, 10, 0x33, 0, 3, 0x24, 0, 1, 0x01, 0, 2, 0x44, 0x31,   /* 127  LLW 10, ADF 3, LGW 1, LIW 2, MDC, STI */
    0x78, 0, 7, 0, 45,                                             /* 141  FRN 7 45 */
    0x01, 1, 42, 0x01, 0, 0, 0x01, 255, 255, 0x77, 0, 7, 0, 1, 79, /* 146  LIW 298, LIW 0, LIW 65535, FRI 7 0 335 */
    0x20, 0, 7, 0x26, 0, 2,                                        /* 161  LLW 7, SGW 2 */
    0x01, 0, 0, 0x24, 0, 2, 0x01, 0, 1, 0x77, 0, 10, 0, 1, 74,     /* 167  LIW 0, LGW 2, LIW 1, FRI 10 0 330 */
    0x20, 0, 10, 0x26, 0, 3,                                       /* 182  LLW 10, SGW 3 */
    0x2d, 0, 8, 0x24, 0, 3,                                        /* 188  LAG 8, LGW 3 */
    0x39, 0, 0, 1, 43, 0x37, 0, 0, 0, 4, 0x32, 0, 1,               /* 194  RGC 0 299, IXC 0 4, LDF 1 */
    0x2d, 0, 8, 0x24, 0, 3, 0x01, 0, 1, 0x40,                      /* 207  LAG 8, LGW 3, LIW 1, ADC */
    0x39, 0, 0, 1, 43, 0x37, 0, 0, 0, 4, 0x32, 0, 1,               /* 217  RGC 0 299, IXC 0 4, LDF 1 */
    0x05, 0x5c, 0x71, 1, 69,                                       /* 230  SWP, LSC, JPF 325 */
    0x2d, 0, 4, 0x2d, 0, 8, 0x24, 0, 3,                            /* 235  LAG 4, LAG 8, LGW 3 */
    0x39, 0, 0, 1, 43, 0x37, 0, 0, 0, 4, 0x34, 0, 4,               /* 244  RGC 0 299, IXC 0 4, MOV 4 */
    0x2d, 0, 8, 0x24, 0, 3,                                        /* 257  LAG 8, LGW 3 */
    0x39, 0, 0, 1, 43, 0x37, 0, 0, 0, 4,                           /* 263  RGC 0 299, IXC 0 4 */
    0x2d, 0, 8, 0x24, 0, 3, 0x01, 0, 1, 0x40,                      /* 273  LAG 8, LGW 3, LIW 1, ADC */
    0x39, 0, 0, 1, 43, 0x37, 0, 0, 0, 4, 0x34, 0, 4,               /* 283  RGC 0 299, IXC 0 4, MOV 4 */
    0x2d, 0, 8, 0x24, 0, 3, 0x01, 0, 1, 0x40,                      /* 296  LAG 8, LGW 3, LIW 1, ADC */
    0x39, 0, 0, 1, 43, 0x37, 0, 0, 0, 4, 0x2d, 0, 4, 0x34, 0, 4,   /* 306  RGC 0 299, IXC 0 4, LAG 4, MOV 4 */
    0x70, 1, 69,                                                   /* 322  JMP 325 */
    0x78, 0, 10, 0, 182,                                           /* 325  FRN 10 182 */
    0x78, 0, 7, 0, 161,                                            /* 330  FRN 7 161 */
    0x78, 0, 4, 0, 18,                                             /* 335  FRN 4 18 */
    0x6a,                                                          /* 340  RTN */
};

/* Nodes: turn, i, sum, first and node at 0 to 4; value and next are the words of a node */
static uint8_t nodes[] = {
    0x68, 0, 10,                                                       /*   0  ENT 10 */
    0x01, 0, 1, 0x01, 19, 136, 0x01, 0, 1, 0x77, 0, 4, 0, 0, 68,       /*   3  LIW 1, LIW 5000, LIW 1, FRI 4 0 68 */
    0x20, 0, 4, 0x26, 0, 1,                                            /*  18  LLW 4, SGW 1 */
    0x2d, 0, 4, 0x01, 0, 2, 0x7a,                                      /*  24  LAG 4, LIW 2, ALC */
    0x24, 0, 4, 0x36, 0x33, 0, 0, 0x24, 0, 1, 0x01, 0, 10, 0x44, 0x31, /*  31  LGW 4, NLT, ADF 0, LGW 1, LIW 10, MDC, STI */
    0x24, 0, 4, 0x36, 0x33, 0, 1, 0x24, 0, 3, 0x31,                    /*  46  LGW 4, NLT, ADF 1, LGW 3, STI */
    0x24, 0, 4, 0x26, 0, 3,                                            /*  57  LGW 4, SGW 3 */
    0x78, 0, 4, 0, 18,                                                 /*  63  FRN 4 18 */
    0x01, 0, 1, 0x01, 0, 120, 0x01, 0, 1, 0x77, 0, 4, 0, 0, 143,       /*  68  LIW 1, LIW 120, LIW 1, FRI 4 0 143 */
    0x20, 0, 4, 0x26, 0, 0,                                            /*  83  LLW 4, SGW 0 */
    0x01, 0, 0, 0x26, 0, 2,                                            /*  89  LIW 0, SGW 2 */
    0x24, 0, 3, 0x26, 0, 4,                                            /*  95  LGW 3, SGW 4 */
    0x24, 0, 4, 0x01, 0, 0, 0x5b, 0x71, 0, 138,                        /* 101  LGW 4, LIW 0, NEQ, JPF 138 */
    0x24, 0, 2, 0x24, 0, 4, 0x36, 0x32, 0, 0, 0x40, 0x26, 0, 2,        /* 111  LGW 2, LGW 4, NLT, LDF 0, ADC, SGW 2 */
    0x24, 0, 4, 0x36, 0x32, 0, 1, 0x26, 0, 4,                          /* 125  LGW 4, NLT, LDF 1, SGW 4 */
    0x70, 0, 101,                                                      /* 135  JMP 101 */
    0x78, 0, 4, 0, 83,                                                 /* 138  FRN 4 83 */
    0x6a,                                                              /* 143  RTN */
};

/* Fibonacci: turn and value at 0 and 1; fib, with n in its frame at 4, begins at 46 */
static uint8_t fibonacci[] = {
    0x68, 0, 7,                                               /*   0  ENT 7 */
    0x01, 0, 1, 0x01, 0, 4, 0x01, 0, 1, 0x77, 0, 4, 0, 0, 45, /*   3  LIW 1, LIW 4, LIW 1, FRI 4 0 45 */
    0x20, 0, 4, 0x26, 0, 0,                                   /*  18  LLW 4, SGW 0 */
    0x60, 0x61, 0, 0x01, 0, 24, 0x63,                         /*  24  SAV, MRK 0, LIW 24, PSH */
    0x65, 1, 0, 1, 0x6b, 1, 0x26, 0, 1,                       /*  31  CLL 1 1, RST 1, SGW 1 */
    0x78, 0, 4, 0, 18,                                        /*  40  FRN 4 18 */
    0x6a,                                                     /*  45  RTN */
    0x68, 0, 5,                                               /*  46  ENT 5 */
    0x20, 0, 4, 0x01, 0, 2, 0x5c, 0x71, 0, 66,                /*  49  LLW 4, LIW 2, LSC, JPF 66 */
    0x20, 0, 4, 0x6a, 0x70, 0, 66,                            /*  59  LLW 4, RTN, JMP 66 */
    0x60, 0x61, 0, 0x20, 0, 4, 0x01, 0, 1, 0x41, 0x63,        /*  66  SAV, MRK 0, LLW 4, LIW 1, SBC, PSH */
    0x65, 1, 0, 1, 0x6b, 1,                                   /*  77  CLL 1 1, RST 1 */
    0x60, 0x61, 0, 0x20, 0, 4, 0x01, 0, 2, 0x41, 0x63,        /*  83  SAV, MRK 0, LLW 4, LIW 2, SBC, PSH */
    0x65, 1, 0, 1, 0x6b, 1, 0x40, 0x6a,                       /*  94  CLL 1 1, RST 1, ADC, RTN */
    0x79, 8,                                                  /* 102  TRP 8 */
};

/* Ackermann: turn, i and value at 0 to 2; ack, with m and n in its frame at 4 and 5, begins at 76 */
static uint8_t ackermann[] = {
    0x68, 0, 10,                                                  /*   0  ENT 10 */
    0x01, 0, 1, 0x01, 0, 200, 0x01, 0, 1, 0x77, 0, 4, 0, 0, 75,   /*   3  LIW 1, LIW 200, LIW 1, FRI 4 0 75 */
    0x20, 0, 4, 0x26, 0, 0,                                       /*  18  LLW 4, SGW 0 */
    0x01, 0, 1, 0x01, 0, 10, 0x01, 0, 1, 0x77, 0, 7, 0, 0, 70,    /*  24  LIW 1, LIW 10, LIW 1, FRI 7 0 70 */
    0x20, 0, 7, 0x26, 0, 1,                                       /*  39  LLW 7, SGW 1 */
    0x60, 0x61, 0, 0x01, 0, 2, 0x63, 0x01, 0, 9, 0x63,            /*  45  SAV, MRK 0, LIW 2, PSH, LIW 9, PSH */
    0x65, 1, 0, 2, 0x6b, 1, 0x26, 0, 2,                           /*  56  CLL 1 2, RST 1, SGW 2 */
    0x78, 0, 7, 0, 39,                                            /*  65  FRN 7 39 */
    0x78, 0, 4, 0, 18,                                            /*  70  FRN 4 18 */
    0x6a,                                                         /*  75  RTN */
    0x68, 0, 6,                                                   /*  76  ENT 6 */
    0x20, 0, 4, 0x01, 0, 0, 0x5a, 0x71, 0, 100,                   /*  79  LLW 4, LIW 0, EQU, JPF 100 */
    0x20, 0, 5, 0x01, 0, 1, 0x40, 0x6a, 0x70, 0, 100,             /*  89  LLW 5, LIW 1, ADC, RTN, JMP 100 */
    0x20, 0, 5, 0x01, 0, 0, 0x5a, 0x71, 0, 135,                   /* 100  LLW 5, LIW 0, EQU, JPF 135 */
    0x60, 0x61, 0, 0x20, 0, 4, 0x01, 0, 1, 0x41, 0x63,            /* 110  SAV, MRK 0, LLW 4, LIW 1, SBC, PSH */
    0x01, 0, 1, 0x63, 0x65, 1, 0, 2, 0x6b, 1, 0x6a, 0x70, 0, 135, /* 121  LIW 1, PSH, CLL 1 2, RST 1, RTN, JMP 135 */
    0x60, 0x61, 0, 0x20, 0, 4, 0x01, 0, 1, 0x41, 0x63,            /* 135  SAV, MRK 0, LLW 4, LIW 1, SBC, PSH */
    0x60, 0x61, 0, 0x20, 0, 4, 0x63,                              /* 146  SAV, MRK 0, LLW 4, PSH */
    0x20, 0, 5, 0x01, 0, 1, 0x41, 0x63,                           /* 153  LLW 5, LIW 1, SBC, PSH */
    0x65, 1, 0, 2, 0x6b, 1, 0x63, 0x65, 1, 0, 2, 0x6b, 1, 0x6a,   /* 161  CLL 1 2, RST 1, PSH, CLL 1 2, RST 1, RTN */
    0x79, 8,                                                      /* 175  TRP 8 */
};

/* Quicksort: turn, seed and i at 0 to 2, numbers at 3; sort, with first, last, low, high, middle and third in its frame
   at 4 to 9, begins at 110 */
static uint8_t quicksort[] = {
    0x68, 0, 10,                                                         /*   0  ENT 10 */
    0x01, 0, 1, 0x01, 0, 6, 0x01, 0, 1, 0x77, 0, 4, 0, 0, 109,           /*   3  LIW 1, LIW 6, LIW 1, FRI 4 0 109 */
    0x20, 0, 4, 0x26, 0, 0,                                              /*  18  LLW 4, SGW 0 */
    0x01, 0, 1, 0x26, 0, 1,                                              /*  24  LIW 1, SGW 1 */
    0x01, 0, 1, 0x01, 15, 160, 0x01, 0, 1, 0x77, 0, 7, 0, 0, 90,         /*  30  LIW 1, LIW 4000, LIW 1, FRI 7 0 90 */
    0x20, 0, 7, 0x26, 0, 2,                                              /*  45  LLW 7, SGW 2 */
    0x24, 0, 1, 0x01, 0, 5, 0x42, 0x01, 39, 23, 0x44, 0x26, 0, 1,        /*  51  LGW 1, LIW 5, MLC, LIW 10007, MDC, SGW 1 */
    0x2d, 0, 3, 0x24, 0, 2, 0x39, 0, 1, 15, 160, 0x37, 0, 1, 0, 1,       /*  65  LAG 3, LGW 2, RGC 1 4000, IXC 1 1 */
    0x24, 0, 1, 0x31,                                                    /*  81  LGW 1, STI */
    0x78, 0, 7, 0, 45,                                                   /*  85  FRN 7 45 */
    0x61, 0, 0x01, 0, 1, 0x63, 0x01, 15, 160, 0x63, 0x65, 1, 0, 2,       /*  90  MRK 0, LIW 1, PSH, LIW 4000, PSH, CLL 1 2 */
    0x78, 0, 4, 0, 18,                                                   /* 104  FRN 4 18 */
    0x6a,                                                                /* 109  RTN */
    0x68, 0, 10,                                                         /* 110  ENT 10 */
    0x20, 0, 4, 0x22, 0, 6,                                              /* 113  LLW 4, SLW 6 */
    0x20, 0, 5, 0x22, 0, 7,                                              /* 119  LLW 5, SLW 7 */
    0x2d, 0, 3, 0x20, 0, 4, 0x20, 0, 5, 0x40, 0x01, 0, 2, 0x43,          /* 125  LAG 3, LLW 4, LLW 5, ADC, LIW 2, DVC */
    0x39, 0, 1, 15, 160, 0x37, 0, 1, 0, 1, 0x30, 0x22, 0, 8,             /* 139  RGC 1 4000, IXC 1 1, LDI, SLW 8 */
    0x2d, 0, 3, 0x20, 0, 6, 0x39, 0, 1, 15, 160, 0x37, 0, 1, 0, 1, 0x30, /* 153  LAG 3, LLW 6, RGC 1 4000, IXC 1 1, LDI */
    0x20, 0, 8, 0x5c, 0x71, 0, 190,                                      /* 170  LLW 8, LSC, JPF 190 */
    0x20, 0, 6, 0x01, 0, 1, 0x40, 0x22, 0, 6, 0x70, 0, 153,              /* 177  LLW 6, LIW 1, ADC, SLW 6, JMP 153 */
    0x2d, 0, 3, 0x20, 0, 7, 0x39, 0, 1, 15, 160, 0x37, 0, 1, 0, 1, 0x30, /* 190  LAG 3, LLW 7, RGC 1 4000, IXC 1 1, LDI */
    0x20, 0, 8, 0x05, 0x5c, 0x71, 0, 228,                                /* 207  LLW 8, SWP, LSC, JPF 228 */
    0x20, 0, 7, 0x01, 0, 1, 0x41, 0x22, 0, 7, 0x70, 0, 190,              /* 215  LLW 7, LIW 1, SBC, SLW 7, JMP 190 */
    0x20, 0, 6, 0x20, 0, 7, 0x5d, 0x71, 1, 79,                           /* 228  LLW 6, LLW 7, LEC, JPF 335 */
    0x2d, 0, 3, 0x20, 0, 6, 0x39, 0, 1, 15, 160, 0x37, 0, 1, 0, 1, 0x30, /* 238  LAG 3, LLW 6, RGC 1 4000, IXC 1 1, LDI */
    0x22, 0, 9,                                                          /* 255  SLW 9 */
    0x2d, 0, 3, 0x20, 0, 6, 0x39, 0, 1, 15, 160, 0x37, 0, 1, 0, 1,       /* 258  LAG 3, LLW 6, RGC 1 4000, IXC 1 1 */
    0x2d, 0, 3, 0x20, 0, 7, 0x39, 0, 1, 15, 160, 0x37, 0, 1, 0, 1, 0x30, /* 274  LAG 3, LLW 7, RGC 1 4000, IXC 1 1, LDI */
    0x31,                                                                /* 291  STI */
    0x2d, 0, 3, 0x20, 0, 7, 0x39, 0, 1, 15, 160, 0x37, 0, 1, 0, 1,       /* 292  LAG 3, LLW 7, RGC 1 4000, IXC 1 1 */
    0x20, 0, 9, 0x31,                                                    /* 308  LLW 9, STI */
    0x20, 0, 6, 0x01, 0, 1, 0x40, 0x22, 0, 6,                            /* 312  LLW 6, LIW 1, ADC, SLW 6 */
    0x20, 0, 7, 0x01, 0, 1, 0x41, 0x22, 0, 7,                            /* 322  LLW 7, LIW 1, SBC, SLW 7 */
    0x70, 1, 79,                                                         /* 332  JMP 335 */
    0x20, 0, 6, 0x20, 0, 7, 0x05, 0x5c, 0x71, 0, 153,                    /* 335  LLW 6, LLW 7, SWP, LSC, JPF 153 */
    0x20, 0, 4, 0x20, 0, 7, 0x5c, 0x71, 1, 117,                          /* 346  LLW 4, LLW 7, LSC, JPF 373 */
    0x61, 0, 0x20, 0, 4, 0x63, 0x20, 0, 7, 0x63, 0x65, 1, 0, 2,          /* 356  MRK 0, LLW 4, PSH, LLW 7, PSH, CLL 1 2 */
    0x70, 1, 117,                                                        /* 370  JMP 373 */
    0x20, 0, 6, 0x20, 0, 5, 0x5c, 0x71, 1, 144,                          /* 373  LLW 6, LLW 5, LSC, JPF 400 */
    0x61, 0, 0x20, 0, 6, 0x63, 0x20, 0, 5, 0x63, 0x65, 1, 0, 2,          /* 383  MRK 0, LLW 6, PSH, LLW 5, PSH, CLL 1 2 */
    0x70, 1, 144,                                                        /* 397  JMP 400 */
    0x6a,                                                                /* 400  RTN */
};
