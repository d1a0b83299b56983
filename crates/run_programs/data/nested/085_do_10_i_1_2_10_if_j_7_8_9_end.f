      DO 10 I=1,2
10    IF(J)7,8,9
      END
