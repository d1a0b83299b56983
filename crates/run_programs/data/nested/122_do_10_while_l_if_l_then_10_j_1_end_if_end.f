      DO 10 WHILE(L)
      IF(L)THEN
10    J=1
      END IF
      END
