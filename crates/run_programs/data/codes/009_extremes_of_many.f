      I=5
      J=-7
      K=2
      WRITE (6,10) MAX0(I,J,K,I+J,9-I),MIN0(I,J,K,J-I,K*K),MAX0(J,K)
      WRITE (6,10) MIN0(I,K,J),IABS(J),IABS(I*J),ISIGN(I,J),IDIM(I,J)
      WRITE (6,10) MOD(J,K)
   10 FORMAT (9I4)
      END
