      INTEGER A(3)
      DATA (A(X),X=1,3)/3*1/
      END
