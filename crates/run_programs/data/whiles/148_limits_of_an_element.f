      INTEGER DOWHILE(3),WHILE(3)
      DO WHILE (I)=1,2
      END DO
      END
