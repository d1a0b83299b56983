      INTEGER A(6,6)
      L=1
      DO WHILE (L.LT.4)
      DO I=1,6
      J=1
      DO WHILE (J.LE.6)
      DO K=1,L
      A(J,I)=A(J,I)+K*I-J
      END DO
      J=J+L
      END DO
      END DO
      L=L+1
      END DO
      WRITE (6,10) A
   10 FORMAT (6I5)
      END
