      DO 10 I=1,2
      DO 10 I=1,2
      IF(L)THEN
10    CONTINUE
      END IF
      END
