      INTEGER A(70)
      DO 5 I=1,69
    5 A(I)=I+1
      J=1
      K=A(A(A(A(A(A(A(A(A(A(A(A(A(A(A(A(A(A(A(A(A(A(A(A(A(A(A(A(A(A(A(A(
     1A(A(A(A(A(A(A(A(A(A(A(A(A(A(A(A(A(A(A(A(A(A(A(A(A(A(A(A(A(A(A(A(J)
     1)))))))))))))))))))))))))))))))))))))))))))))))))))))))))))))))
      A(A(A(A(A(A(A(A(A(A(A(A(A(A(A(A(A(A(A(A(A(A(A(A(A(A(A(A(A(A(A(A(A(
     1A(A(A(A(A(A(A(A(A(A(A(A(A(A(A(A(A(A(A(A(A(A(A(A(A(A(A(A(A(A(A(1)))
     1)))))))))))))))))))))))))))))))))))))))))))))))))))))))))))))=99
      WRITE (6,10) K,A(64),A(65)
   10 FORMAT (3I4)
      END
