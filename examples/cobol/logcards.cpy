      *> A line of either, and what of it would be lost.
       FD  DESCRIPTION-FILE.
       01  DESCRIPTION-LINE.
           05  DESCRIPTION-CARD     PIC X(80).
           05  DESCRIPTION-OVERFLOW PIC X(80).
       FD  RULE-FILE.
       01  RULE-LINE.
           05  RULE-CARD            PIC X(80).
           05  RULE-OVERFLOW        PIC X(80).
