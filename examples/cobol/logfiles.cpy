      *> The files of a description and a rule.
           SELECT DESCRIPTION-FILE ASSIGN TO "description.txt"
               ORGANIZATION IS LINE SEQUENTIAL.
           SELECT RULE-FILE        ASSIGN TO "rule.txt"
               ORGANIZATION IS LINE SEQUENTIAL.
