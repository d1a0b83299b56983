      DO 10 I=1,2
      DO 10 I=1,2
      DO 10 I=1,2
      DO 10 I=1,2
      DO 10 I=1,2
      DO 10 I=1,2
      DO 10 I=1,2
      DO 10 I=1,2
      DO 10 I=1,2
      DO 10 I=1,2
      DO 10 I=1,2
      DO 10 I=1,2
      DO 10 I=1,2
      DO 10 I=1,2
      DO 10 I=1,2
      DO 10 I=1,2
      DO 10 I=1,2
      DO 10 I=1,2
      DO 10 I=1,2
      DO 10 I=1,2
      DO 10 I=1,2
      DO 10 I=1,2
      DO 10 I=1,2
      DO 10 I=1,2
      DO 10 I=1,2
      DO 10 I=1,2
      DO 10 I=1,2
      DO 10 I=1,2
      DO 10 I=1,2
      DO 10 I=1,2
      DO 10 I=1,2
      IF(L)THEN
      DO 20 I=1,2
20    J=1
      END IF
10    J=1
      END
