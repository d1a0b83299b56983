      INTEGER A(3)
      ITWO(N)=2*N
      IONE(A)=A+1
      IADD(ITWO,A)=ITWO+A
      A(1)=50
      WRITE (6,10) IONE(6),IADD(9,6)
   10 FORMAT (2I3)
      END
