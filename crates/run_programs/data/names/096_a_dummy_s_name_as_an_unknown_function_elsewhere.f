      ISQ(J)=J*J
      I=J(2)
      END
